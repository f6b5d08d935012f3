/* Tests of the library's calls for C: each call on a small text, the edges of buffers, bytes that are no text, a large text, many
   calls, and threads. Prints a line for each failure, and how many checks passed. */
#include "biblatex.h"

#include <malloc.h>
#include <pthread.h>
#include <stdio.h>
#include <stdlib.h>
#include <string.h>
#ifdef __SANITIZE_ADDRESS__
size_t __sanitizer_get_current_allocated_bytes(void);
#endif

typedef uint32_t (*reading)(const uint8_t *, size_t, uint8_t *, size_t, size_t *);

static int passed, failed;

static void check(int holds, const char *what)
{
    if (holds) {
        passed++;
    } else {
        failed++;
        printf("FAILED: %s\n", what);
    }
}

static const uint8_t *bytes(const char *text) { return (const uint8_t *)text; }

/* Whether a call answers this text. */
static int answers(reading call, const char *text, const char *wanted)
{
    uint8_t out[4096];
    size_t size = 0;
    uint32_t status = call(bytes(text), strlen(text), out, sizeof out, &size);
    return status == BIBLATEX_DONE && size == strlen(wanted) && memcmp(out, wanted, size) == 0;
}

static const char FILE_TEXT[] = "@article{a, author={Ann Bell}, title={T}}\n@misc{b, crossref={a}}\n";

static const char ZERO[] = "@a{b,t={\0}}";

static void check_readings(void)
{
    uint8_t out[4096];
    size_t size = 0;
    check(answers(biblatex_keys, FILE_TEXT, "a\nb\n"), "keys");
    check(answers(biblatex_biblatex, "@misc{a, title=\"T\"}", "@misc{a,\ntitle = {T},\n}\n"), "biblatex");
    check(answers(biblatex_bibtex, "@article{a, journaltitle={J}}", "@article{a,\njournal = {J},\n}\n"), "bibtex");
    check(answers(biblatex_fmt, "@MISC{a,title={T}}\n", "@misc{a,\n  title = {T},\n}\n"), "fmt");
    check(biblatex_keys(bytes(ZERO), sizeof ZERO - 1, out, sizeof out, &size) == BIBLATEX_DONE && size == 2, "keys of a text with a byte of zero");
    check(answers(biblatex_keys, "", ""), "keys of nothing");
    check(answers(biblatex_json, "", "[]\n"), "json of nothing");
    check(answers(biblatex_csl, "", "[]\n"), "csl of nothing");
    check(answers(biblatex_lint, "", "[\n]\n"), "lint of nothing");
    check(biblatex_csl(bytes(FILE_TEXT), strlen(FILE_TEXT), out, sizeof out, &size) == BIBLATEX_DONE && size > 0, "csl");
    check(biblatex_json(bytes(FILE_TEXT), strlen(FILE_TEXT), out, sizeof out, &size) == BIBLATEX_DONE && size > 0, "json");
    check(biblatex_lint(bytes("@misc{a"), 7, out, sizeof out, &size) == BIBLATEX_DONE
              && size > 4, "lint of a text with an error");
}

static void check_edits(void)
{
    const char *text = "@misc{a,\n  title = {T},\n}\n@misc{b, crossref = {a}}\n";
    uint8_t out[4096];
    size_t size = 0;
    const char *wanted = "@misc{a,\n  title = {U},\n}\n@misc{b, crossref = {a}}\n";
    uint32_t status = biblatex_set(bytes(text), strlen(text), bytes("a"), 1, bytes("title"), 5, bytes("U"), 1, out, sizeof out, &size);
    check(status == BIBLATEX_DONE && size == strlen(wanted) && memcmp(out, wanted, size) == 0, "set");
    wanted = "@misc{c,\n  title = {T},\n}\n@misc{b, crossref = {c}}\n";
    status = biblatex_rename(bytes(text), strlen(text), bytes("a"), 1, bytes("c"), 1, out, sizeof out, &size);
    check(status == BIBLATEX_DONE && size == strlen(wanted) && memcmp(out, wanted, size) == 0, "rename");
    wanted = "@misc{b, crossref = {a}}\n";
    status = biblatex_remove(bytes(text), strlen(text), bytes("a"), 1, out, sizeof out, &size);
    check(status == BIBLATEX_DONE && size == strlen(wanted) && memcmp(out, wanted, size) == 0, "remove");
    const char *two = "@misc{b, crossref = {a}, note = {N}}\n";
    wanted = "@misc{b, note = {N}}\n";
    status = biblatex_unset(bytes(two), strlen(two), bytes("b"), 1, bytes("crossref"), 8, out, sizeof out, &size);
    check(status == BIBLATEX_DONE && size == strlen(wanted) && memcmp(out, wanted, size) == 0, "unset");
    size = 77;
    memset(out, 'x', sizeof out);
    status = biblatex_unset(bytes(text), strlen(text), bytes("z"), 1, bytes("title"), 5, out, sizeof out, &size);
    check(status == BIBLATEX_UNKNOWN_KEY && size == 77 && out[0] == 'x', "an edit of no entry is refused, and changes nothing");
    check(biblatex_rename(bytes(text), strlen(text), bytes("a"), 1, bytes("b"), 1, out, sizeof out, &size) == BIBLATEX_KEY_IS_THERE && size == 77,
          "a new key that is there");
    check(biblatex_rename(bytes(text), strlen(text), bytes("a"), 1, bytes("b c"), 3, out, sizeof out, &size) == BIBLATEX_NOT_A_KEY, "a new key that is none");
    check(biblatex_rename(bytes(text), strlen(text), bytes("a"), 1, bytes("B"), 1, out, sizeof out, &size) == BIBLATEX_KEY_IS_THERE,
          "a new key that is there in another case");
    check(biblatex_set(bytes(text), strlen(text), bytes("a"), 1, bytes("b c"), 3, bytes("U"), 1, out, sizeof out, &size) == BIBLATEX_NOT_A_NAME,
          "a name that is none");
    check(biblatex_set(bytes(text), strlen(text), bytes("a"), 1, bytes("note"), 4, bytes("U}"), 2, out, sizeof out, &size) == BIBLATEX_NOT_IN_BRACES,
          "a value with a brace that closes nothing");
    check(biblatex_add(bytes(text), strlen(text), bytes("@misc{b{,}"), 10, out, sizeof out, &size) == BIBLATEX_NOT_A_KEY && size == 77,
          "an added key that is none");
    check(biblatex_set_bare(bytes(text), strlen(text), bytes("a"), 1, bytes("month"), 5, bytes("smarch"), 6, out, sizeof out, &size) == BIBLATEX_NOT_BARE,
          "a value without braces that is no abbreviation");
    wanted = "@misc{b, crossref = {a}, note = jan}\n";
    status = biblatex_set_bare(bytes(two), strlen(two), bytes("b"), 1, bytes("note"), 4, bytes("jan"), 3, out, sizeof out, &size);
    check(status == BIBLATEX_DONE && size == strlen(wanted) && memcmp(out, wanted, size) == 0, "set without braces");
    size = 77;
    check(biblatex_set(bytes("@misc{a"), 7, bytes("a"), 1, bytes("note"), 4, bytes("U"), 1, out, sizeof out, &size) == BIBLATEX_REFUSED && size == 77,
          "an edit of a text with an error");
}

static void check_addition(void)
{
    const char *text = "@misc{a,title={T}}", *wanted = "@misc{a,title={T}}\n@misc{b,title={U}}";
    uint8_t out[4096];
    size_t size = 0;
    uint32_t status = biblatex_add(bytes(text), strlen(text), bytes("@misc{b,title={U}}"), 18, out, sizeof out, &size);
    check(status == BIBLATEX_DONE && size == strlen(wanted) && memcmp(out, wanted, size) == 0, "add");
    size = 77;
    check(biblatex_add(bytes(text), strlen(text), bytes(text), strlen(text), out, sizeof out, &size) == BIBLATEX_KEY_IS_THERE && size == 77,
          "an addition of a key that is there is refused");
    check(biblatex_unset(bytes(text), strlen(text), bytes("a"), 1, bytes("title"), 5, out, sizeof out, &size) == BIBLATEX_NO_FIELD_LEFT && size == 77,
          "an entry keeps at least one field");
    check(biblatex_add(bytes("@string{s={x}}"), 14, bytes("@string{S={y}}"), 14, out, sizeof out, &size) == BIBLATEX_DEFINITION_IS_THERE && size == 77,
          "an addition of another definition is refused");
    check(biblatex_add(bytes(text), strlen(text), bytes("@misc{b"), 7, out, sizeof out, &size) == BIBLATEX_REFUSED && size == 77,
          "an addition of a text with an error is refused");
    wanted = "@misc{a,\r\ntitle={T}}\r\n\r\n@misc{b,\r\ntitle={U}}\r\n";
    status = biblatex_add(bytes("@misc{a,\r\ntitle={T}}\r\n"), 22, bytes("@misc{b,\ntitle={U}}\n"), 20, out, sizeof out, &size);
    check(status == BIBLATEX_DONE && size == strlen(wanted) && memcmp(out, wanted, size) == 0, "added lines end as those of the text");
    size = 77;
    text = "@misc{a, title = \"The {\"}Big{\"} one\"}";
    check(biblatex_remove(bytes(text), strlen(text), bytes("a"), 1, out, sizeof out, &size) == BIBLATEX_UNBALANCED_QUOTES && size == 77,
          "an edit beside a text in quotes with unbalanced braces is refused");
    check(biblatex_add(bytes("@misc{b, note={N}}"), 18, bytes(text), strlen(text), out, sizeof out, &size) == BIBLATEX_UNBALANCED_QUOTES && size == 77,
          "an addition of a text in quotes with unbalanced braces is refused");
}

/* Whether this is what is kept of a text with an error after the only field of the second of its three entries. */
static int recovers(uint32_t format, const char *wanted)
{
    const char *text = "@article{a, journaltitle={J}}\n@misc{b, title={T}\n@misc{c, note={N}}\n";
    uint8_t out[4096];
    size_t size = 0;
    uint32_t status = biblatex_recover(bytes(text), strlen(text), format, out, sizeof out, &size);
    return status == BIBLATEX_DONE && size == strlen(wanted) && memcmp(out, wanted, size) == 0;
}

static void check_recovery(void)
{
    uint8_t out[4096];
    size_t size = 77;
    check(recovers(BIBLATEX_FORMAT_BIBLATEX, "@article{a,\njournaltitle = {J},\n}\n\n@misc{b,\ntitle = {T},\n}\n\n@misc{c,\nnote = {N},\n}\n"), "recover as BibLaTeX");
    check(recovers(BIBLATEX_FORMAT_BIBTEX, "@article{a,\njournal = {J},\n}\n\n@misc{b,\ntitle = {T},\n}\n\n@misc{c,\nnote = {N},\n}\n"), "recover as BibTeX");
    check(recovers(BIBLATEX_FORMAT_JSON,
                   "[\n{\"fields\":{\"journaltitle\":{\"chunks\":[{\"end\":27,\"kind\":\"normal\",\"start\":26,\"text\":\"J\"}]}},"
                   "\"key\":\"a\",\"type\":\"article\"},\n"
                   "{\"fields\":{\"title\":{\"chunks\":[{\"end\":47,\"kind\":\"normal\",\"start\":46,\"text\":\"T\"}]}},"
                   "\"key\":\"b\",\"type\":\"misc\"},\n"
                   "{\"fields\":{\"note\":{\"chunks\":[{\"end\":65,\"kind\":\"normal\",\"start\":64,\"text\":\"N\"}]}},"
                   "\"key\":\"c\",\"type\":\"misc\"}\n]\n"),
          "recover as JSON");
    check(biblatex_recover(bytes("@{a"), 3, BIBLATEX_FORMAT_CSL, out, sizeof out, &size) == BIBLATEX_DONE && size == 3
              && memcmp(out, "[]\n", 3) == 0,
          "recover nothing as CSL");
    size = 77;
    check(biblatex_recover(bytes(""), 0, 4, out, sizeof out, &size) == BIBLATEX_REFUSED && size == 77, "a number that no format has");
    check(biblatex_recover(bytes("@misc{a,note={\xe9}}"), 17, BIBLATEX_FORMAT_BIBLATEX, out, sizeof out, &size) == BIBLATEX_DONE && size == 24
              && memcmp(out, "@misc{a,\nnote = {\xc3\xa9},\n}\n", 24) == 0,
          "recover bytes that aren't UTF-8");
    check(biblatex_version(out, sizeof out, &size) == BIBLATEX_DONE && size == 5 && memcmp(out, "0.1.0", 5) == 0, "version");
}

static void check_buffers(void)
{
    uint8_t out[8];
    size_t size = 77;
    memset(out, 'x', sizeof out);
    check(biblatex_keys(bytes(FILE_TEXT), strlen(FILE_TEXT), out, 0, &size) == BIBLATEX_TOO_SHORT && size == 4 && out[0] == 'x',
          "a buffer of no bytes");
    size = 77;
    check(biblatex_keys(bytes(FILE_TEXT), strlen(FILE_TEXT), out, 3, &size) == BIBLATEX_TOO_SHORT && size == 4 && out[0] == 'x',
          "a buffer that is one byte too short");
    check(biblatex_keys(bytes(FILE_TEXT), strlen(FILE_TEXT), out, 4, &size) == BIBLATEX_DONE && memcmp(out, "a\nb\nxxxx", 8) == 0,
          "a buffer that is just long enough, and what stands after it");
    memset(out, 'x', sizeof out);
    size = 77;
    check(biblatex_keys(bytes("\xff"), 1, out, 8, &size) == BIBLATEX_NOT_UTF8 && size == 77 && out[0] == 'x', "bytes that aren't UTF-8");
    check(biblatex_keys(bytes("@a{b"), 4, out, 8, &size) == BIBLATEX_REFUSED && size == 77 && out[0] == 'x', "a text with an error");
    check(biblatex_biblatex(bytes("@a{b,}@a{b,}"), 12, out, 8, &size) == BIBLATEX_REFUSED && size == 77, "two entries of one key");
    uint8_t words[128];
    static const char *const said[] = {"done", "the buffer is too short", "not UTF-8", "refused", "out of memory", "no entry has the key",
        "an entry has the name already, as its key or in its field `ids`", "the text can't be a new key", "the text can't be the name of a field",
        "the value can't be written in braces", "an abbreviation is defined already with another text",
        "the entry would have no field left", "the value is neither a number nor an abbreviation that is defined before the entry",
        "the braces of a text in quotes aren't balanced", "no status"};
    for (uint32_t status = 0; status < 15; status++) {
        check(biblatex_message(status, words, sizeof words, &size) == BIBLATEX_DONE && size == strlen(said[status])
                  && memcmp(words, said[status], size) == 0, "the words of each status");
    }
    check(biblatex_message(BIBLATEX_NOT_UTF8, words, sizeof words, &size) == BIBLATEX_DONE && size == 9 && memcmp(words, "not UTF-8", 9) == 0,
          "the words of a status");
}

/* Bytes that the program has allocated and not freed. */
static size_t allocated(void)
{
#ifdef __SANITIZE_ADDRESS__
    return __sanitizer_get_current_allocated_bytes();
#else
    struct mallinfo2 memory = mallinfo2();
    return memory.uordblks + memory.hblkhd;
#endif
}

static void check_many(void)
{
    uint8_t out[4096];
    size_t size, before = 0;
    for (int round = 0; round < 10000; round++) {
        biblatex_biblatex(bytes(FILE_TEXT), strlen(FILE_TEXT), out, sizeof out, &size);
        biblatex_lint(bytes(FILE_TEXT), strlen(FILE_TEXT), out, sizeof out, &size);
        biblatex_csl(bytes(FILE_TEXT), strlen(FILE_TEXT), out, sizeof out, &size);
        biblatex_keys(bytes("@a{b"), 4, out, sizeof out, &size);
        if (round == 1000) {
            before = allocated();
        }
    }
    /* a block of malloc has at least 8 bytes, so one lost in each of the last 9,000 rounds is seen */
    check(before > 0 && allocated() <= before + 65536, "memory stays the same over ten thousand calls");
}

static void check_large(void)
{
    const char head[] = "@misc{a, title={";
    size_t value = 100000000, length = strlen(head) + value + 2, size = 0;
    uint8_t *text = malloc(length), *out = malloc(length + 100);
    memcpy(text, head, strlen(head));
    memset(text + strlen(head), 'x', value);
    memcpy(text + length - 2, "}}", 2);
    check(biblatex_biblatex(text, length, out, length + 100, &size) == BIBLATEX_DONE && size > value, "a text of 100 MB");
    free(text);
    free(out);
}

static void *work(void *result)
{
    *(int *)result = 1;
    for (int round = 0; round < 1000; round++) {
        *(int *)result &= answers(biblatex_keys, FILE_TEXT, "a\nb\n");
        *(int *)result &= answers(biblatex_fmt, "@MISC{a,title={T}}\n", "@misc{a,\n  title = {T},\n}\n");
    }
    return NULL;
}

static void check_threads(void)
{
    pthread_t threads[8];
    int results[8];
    for (int at = 0; at < 8; at++) {
        pthread_create(&threads[at], NULL, work, &results[at]);
    }
    for (int at = 0; at < 8; at++) {
        pthread_join(threads[at], NULL);
        check(results[at], "calls of eight threads at once");
    }
}

int main(void)
{
    check_readings();
    check_edits();
    check_addition();
    check_recovery();
    check_buffers();
    check_many();
    check_large();
    check_threads();
    printf("C: %d passed, %d failed\n", passed, failed);
    return failed != 0;
}
