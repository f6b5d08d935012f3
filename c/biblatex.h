/* The library for C.

   Each call except biblatex_version and biblatex_message reads the text `text` of `length` bytes. Each call writes its result into
   the buffer `out` of `capacity` bytes, and stores the size of the result, in bytes, in `*size`. It leaves the rest of the buffer
   unchanged. If the buffer is shorter than the result, the call returns BIBLATEX_TOO_SHORT, stores the size of the result, and
   leaves the buffer unchanged. With any other status except BIBLATEX_DONE, a call changes neither the buffer nor `*size`.

   Texts are UTF-8, and may contain zero bytes. No pointer may be NULL, even for an empty text. A call keeps no pointer and
   returns nothing to free. Several threads may make calls at the same time. */
#ifndef BIBLATEX_H
#define BIBLATEX_H

#include <stddef.h>
#include <stdint.h>

#ifdef __cplusplus
extern "C" {
#endif

/* The status that a call returns. */
enum biblatex_status {
    BIBLATEX_DONE = 0,
    BIBLATEX_TOO_SHORT = 1,     /* the buffer is shorter than the result */
    BIBLATEX_NOT_UTF8 = 2,
    BIBLATEX_REFUSED = 3,       /* the text has an error, which biblatex_lint reports, or `format` isn't a value of enum biblatex_format */
    BIBLATEX_OUT_OF_MEMORY = 4,
    BIBLATEX_UNKNOWN_KEY = 5,   /* no entry has the key; an edit is refused with this status or one of the next eight */
    BIBLATEX_KEY_IS_THERE = 6,  /* a new key, or a name of an added entry, is a key or in `ids` already, in any ASCII case */
    BIBLATEX_NOT_A_KEY = 7,     /* the old key is empty; or a new key or the key of an added entry breaks the rules of biblatex_rename */
    BIBLATEX_NOT_A_NAME = 8,    /* a text can't be the name of a new field */
    BIBLATEX_NOT_IN_BRACES = 9, /* the value, or a changed reference, can't be written in braces */
    BIBLATEX_DEFINITION_IS_THERE = 10, /* the text already defines an added abbreviation with another value */
    BIBLATEX_NO_FIELD_LEFT = 11, /* the entry would have no field left; bibtool doesn't read such an entry */
    BIBLATEX_NOT_BARE = 12, /* the value is neither a number, a month nor an abbreviation that is defined before the entry */
    BIBLATEX_UNBALANCED_QUOTES = 13 /* a quoted text has unbalanced braces: BibTeX and Biber end it elsewhere */
};

/* The formats that biblatex_recover writes. */
enum biblatex_format {
    BIBLATEX_FORMAT_BIBLATEX = 0,
    BIBLATEX_FORMAT_BIBTEX = 1,
    BIBLATEX_FORMAT_JSON = 2,
    BIBLATEX_FORMAT_CSL = 3
};

/* Writes the key of each entry in file order, one per line. */
uint32_t biblatex_keys(const uint8_t *text, size_t length, uint8_t *out, size_t capacity, size_t *size);

/* Writes the bibliography of a text in the types and fields of BibLaTeX. A command that the parser doesn't know is escaped:
   \emph{x} is written \\emph\{x\}. Outside verbatim fields ~ is written \textasciitilde{}. The edits (biblatex_set to
   biblatex_add) and biblatex_fmt keep the source of a file. */
uint32_t biblatex_biblatex(const uint8_t *text, size_t length, uint8_t *out, size_t capacity, size_t *size);

/* Does the same as biblatex_biblatex in the types and fields of BibTeX. */
uint32_t biblatex_bibtex(const uint8_t *text, size_t length, uint8_t *out, size_t capacity, size_t *size);

/* Writes the entries of a bibliography, with chunks and typed values, as a JSON array (docs/entries.schema.json). */
uint32_t biblatex_json(const uint8_t *text, size_t length, uint8_t *out, size_t capacity, size_t *size);

/* Writes the entries of a bibliography as an array of CSL-JSON items. */
uint32_t biblatex_csl(const uint8_t *text, size_t length, uint8_t *out, size_t capacity, size_t *size);

/* Writes everything in a text that can be parsed, in a format of enum biblatex_format. The formats are those of the four calls
   above. In the first two, commands that the parser doesn't know are escaped. biblatex_lint reports the errors. A text that isn't
   UTF-8 is read as Windows-1252. The call refuses only a `format` that isn't a value of enum biblatex_format. */
uint32_t biblatex_recover(const uint8_t *text, size_t length, uint32_t format, uint8_t *out, size_t capacity, size_t *size);

/* Writes the findings of a text as a JSON array of objects. Their members are file (empty), line, column, end_line, end_column,
   severity, code and message. Lines and columns are counted from 1, and columns are in characters. The end is the position after
   the last character. The call refuses no text: one that isn't UTF-8 is read as Windows-1252, and has a finding for that.

   If biblatex_keys or biblatex_fmt refuses a text, the text has a finding with the code unread-bytes or syntax. If
   biblatex_biblatex, biblatex_bibtex, biblatex_json and biblatex_csl refuse a text, it has a finding with one of these codes, or
   with unread-field, unknown-abbreviation, circular-abbreviation, duplicate-key, circular-reference or unread-date. */
uint32_t biblatex_lint(const uint8_t *text, size_t length, uint8_t *out, size_t capacity, size_t *size);

/* Writes the text in the default style. */
uint32_t biblatex_fmt(const uint8_t *text, size_t length, uint8_t *out, size_t capacity, size_t *size);

/* Sets the field `name` of the first entry with the key `key` to `value`, in braces and without escapes, and writes the new text.
   If several fields have the name, each is set. A new field comes before the others. The braces of `value` must balance; a brace
   after a backslash counts, too.

   This call and the next five change no byte of other entries, but biblatex_rename also changes references. Each of them returns
   BIBLATEX_UNBALANCED_QUOTES if `text` contains a quoted text with unbalanced braces, such as "The {"}Big{"} one". */
uint32_t biblatex_set(const uint8_t *text, size_t length, const uint8_t *key, size_t key_length, const uint8_t
    *name, size_t name_length, const uint8_t *value, size_t value_length, uint8_t *out, size_t capacity,
    size_t *size);

/* Does the same as biblatex_set, but writes the value without braces. The value is a number, the abbreviation of a month, or an
   abbreviation that is defined before the entry. */
uint32_t biblatex_set_bare(const uint8_t *text, size_t length, const uint8_t *key, size_t key_length, const uint8_t
    *name, size_t name_length, const uint8_t *value, size_t value_length, uint8_t *out, size_t capacity,
    size_t *size);

/* Removes each field with the name `name` from the first entry with the key `key`, and writes the new text. The comma of a field
   and the white space before the field are removed, too. docs/BIBKIT.md describes which comments stay. Returns
   BIBLATEX_NO_FIELD_LEFT if this would remove all fields of the entry. */
uint32_t biblatex_unset(const uint8_t *text, size_t length, const uint8_t *key, size_t key_length, const
    uint8_t *name, size_t name_length, uint8_t *out, size_t capacity, size_t *size);

/* Replaces the key of the first entry with the key `old_key` by `new_key`, also in the references to this entry, and writes the new
   text. Returns BIBLATEX_KEY_IS_THERE if another entry has the new key as its key, or an entry has it in its field `ids`, in any ASCII
   case. Returns BIBLATEX_NOT_A_KEY if the old key is empty, or if the new one breaks a rule: BibTeX, Biber and bibtool must read it,
   and it must not contain two hyphens in a row or be *, which cites all entries. docs/BIBKIT.md lists all rules. Returns
   BIBLATEX_NOT_IN_BRACES if a reference can't be written in braces. */
uint32_t biblatex_rename(const uint8_t *text, size_t length, const uint8_t *old_key, size_t old_key_length,
    const uint8_t *new_key, size_t new_key_length, uint8_t *out, size_t capacity, size_t *size);

/* Writes the text without the first entry with the key `key`, and without the white space after this entry. */
uint32_t biblatex_remove(const uint8_t *text, size_t length, const uint8_t *key, size_t key_length, uint8_t
    *out, size_t capacity, size_t *size);

/* Writes the text, and `added` after it on a new line. If the first line of the text ends with \r\n, so do the added lines.
   Returns BIBLATEX_KEY_IS_THERE if an added entry has a name of another entry, in any ASCII case. The names of an entry are its key
   and those in its field `ids`. Returns BIBLATEX_NOT_A_KEY if biblatex_rename would refuse the key of an added entry as a new key.
   Returns BIBLATEX_DEFINITION_IS_THERE if `added` gives an abbreviation of the text another value. Returns BIBLATEX_UNBALANCED_QUOTES
   also if `added` contains a quoted text with unbalanced braces. */
uint32_t biblatex_add(const uint8_t *text, size_t length, const uint8_t *added, size_t added_length, uint8_t *out, size_t capacity,
    size_t *size);

/* Writes the version of the library: three numbers with points between them. */
uint32_t biblatex_version(uint8_t *out, size_t capacity, size_t *size);

/* Writes the meaning of a status, or "no status" for another number. */
uint32_t biblatex_message(uint32_t status, uint8_t *out, size_t capacity, size_t *size);

#ifdef __cplusplus
}
#endif

#endif
