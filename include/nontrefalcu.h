/*
 * Nontrefalcu: RDEF reflection chunks read, listed, spelled and written by a proved library.
 *
 * Link target/staticlib/libnontrefalcu.a, which `make library` makes (x86-64 Linux). It needs memcpy and memset of the C library and
 * nothing else: no allocation, no file, no state of its own.
 *
 * Every slice is a pointer and then its length, in elements (bytes or words). A pointer whose length is 0 is not followed. What is lent for
 * writing must overlap nothing else that is lent to the same call. Nothing else is asked of a caller: any bytes, any words and any lengths may
 * be lent. What is lent as `const` is never written.
 *
 * Every function answers 0, or the number of a refusal. After a refusal every word and byte that was lent for writing is 0. After 0 unused words
 * of what was lent for writing are 0, and an output's bytes past the written length are as they were.
 *
 * docs/ROOM.md has the layout of the tables in words, docs/PROMISES.md what is proved of each function.
 */
#ifndef NONTREFALCU_H
#define NONTREFALCU_H

#include <stddef.h>
#include <stdint.h>

#ifdef __cplusplus
extern "C" {
#endif

/* ---- Limits ---- */

#define NONTREFALCU_SHORTEST_CHUNK 28u       /* bytes */
#define NONTREFALCU_LONGEST_CHUNK 65536u     /* bytes; as many may a text of edits have */
#define NONTREFALCU_LONGEST_OUTPUT 65536u    /* bytes; an output may be longer, but no more is written */
#define NONTREFALCU_MOST_BINDINGS 1024u
#define NONTREFALCU_MOST_BUFFERS 64u
#define NONTREFALCU_MOST_VARIABLES 2048u     /* in all buffers */
#define NONTREFALCU_MOST_TYPES 4096u         /* nodes of all variables' types; a shared descriptor counts each time that it is met */
#define NONTREFALCU_LONGEST_REFUSAL_TEXT 128u /* bytes; an output of so many holds the sentence of every refusal */

/* ---- Tables: words of a record, and of a table for the whole room ---- */

#define NONTREFALCU_HEADER_WORDS 12u
#define NONTREFALCU_BINDING_WORDS 12u
#define NONTREFALCU_BUFFER_WORDS 7u
#define NONTREFALCU_VARIABLE_WORDS 13u
#define NONTREFALCU_TYPE_WORDS 17u

#define NONTREFALCU_BINDINGS_TABLE 12288u
#define NONTREFALCU_BUFFERS_TABLE 448u
#define NONTREFALCU_VARIABLES_TABLE 26624u
#define NONTREFALCU_TYPES_TABLE 69632u

/* Words of scratch that the writing functions need: with fewer they refuse with 15. */
#define NONTREFALCU_SCRATCH_WORDS 95360u

/* Record i of a table begins at word i * (words of a record). The variables of a buffer follow those of the buffers before it. The type of a
 * variable is a tree: its node, then the trees of its members in order; the trees of the variables follow each other in order. */

/* ---- Texts: names and default values are three words, beginning at the position that the lists below give ---- */

#define NONTREFALCU_TEXT_SOURCE 0u           /* which buffer holds it */
#define NONTREFALCU_TEXT_PLACE 1u            /* at which byte it begins */
#define NONTREFALCU_TEXT_LENGTH 2u           /* how many bytes it has; there is no NUL in them */

#define NONTREFALCU_SOURCE_CHUNK 0u
#define NONTREFALCU_SOURCE_EDITS 1u

/* ---- Positions of the words ---- */

/* Header */
#define NONTREFALCU_HEADER_TARGET_VERSION 0u /* minor in bits 0 to 7, major in 8 to 15, kind of program from 16 on */
#define NONTREFALCU_HEADER_COMPILE_FLAGS 1u
#define NONTREFALCU_HEADER_CREATOR 2u        /* text */
#define NONTREFALCU_HEADER_RD11_IDENTIFIER 5u /* this and the next two are 0 for major 4 */
#define NONTREFALCU_HEADER_BINDING_STRIDE 6u
#define NONTREFALCU_HEADER_INTERFACE_SLOTS 7u
#define NONTREFALCU_HEADER_BINDING_COUNT 8u
#define NONTREFALCU_HEADER_BUFFER_COUNT 9u
#define NONTREFALCU_HEADER_VARIABLE_COUNT 10u
#define NONTREFALCU_HEADER_TYPE_COUNT 11u

/* Binding */
#define NONTREFALCU_BINDING_NAME 0u          /* text */
#define NONTREFALCU_BINDING_INPUT_TYPE 3u    /* D3D_SHADER_INPUT_TYPE */
#define NONTREFALCU_BINDING_RETURN_TYPE 4u
#define NONTREFALCU_BINDING_DIMENSION 5u     /* D3D_SRV_DIMENSION */
#define NONTREFALCU_BINDING_NUM_SAMPLES 6u
#define NONTREFALCU_BINDING_BIND_POINT 7u
#define NONTREFALCU_BINDING_BIND_COUNT 8u
#define NONTREFALCU_BINDING_FLAGS 9u         /* D3D_SHADER_INPUT_FLAGS */
#define NONTREFALCU_BINDING_SPACE 10u        /* this and the next are 0 where the binding stride is 32 */
#define NONTREFALCU_BINDING_ID 11u

/* Buffer */
#define NONTREFALCU_BUFFER_NAME 0u           /* text */
#define NONTREFALCU_BUFFER_VARIABLE_COUNT 3u
#define NONTREFALCU_BUFFER_SIZE 4u           /* bytes */
#define NONTREFALCU_BUFFER_FLAGS 5u
#define NONTREFALCU_BUFFER_CB_TYPE 6u

/* Variable */
#define NONTREFALCU_VARIABLE_NAME 0u         /* text */
#define NONTREFALCU_VARIABLE_OFFSET 3u
#define NONTREFALCU_VARIABLE_SIZE 4u         /* bytes */
#define NONTREFALCU_VARIABLE_FLAGS 5u        /* D3D_SHADER_VARIABLE_FLAGS */
#define NONTREFALCU_VARIABLE_DEFAULT 6u      /* text: the bytes of the default value, or none */
#define NONTREFALCU_VARIABLE_TEXTURE_START 9u /* this and the next three are 0 for major 4 */
#define NONTREFALCU_VARIABLE_TEXTURE_SIZE 10u
#define NONTREFALCU_VARIABLE_SAMPLER_START 11u
#define NONTREFALCU_VARIABLE_SAMPLER_SIZE 12u

/* Type node */
#define NONTREFALCU_TYPE_CLASS 0u            /* D3D_SHADER_VARIABLE_CLASS */
#define NONTREFALCU_TYPE_VAR_TYPE 1u         /* D3D_SHADER_VARIABLE_TYPE */
#define NONTREFALCU_TYPE_ROWS 2u
#define NONTREFALCU_TYPE_COLUMNS 3u
#define NONTREFALCU_TYPE_ELEMENTS 4u         /* 0: no array */
#define NONTREFALCU_TYPE_MEMBER_COUNT 5u
#define NONTREFALCU_TYPE_EXTRA 6u            /* four words; 0 for major 4 */
#define NONTREFALCU_TYPE_NAME 10u            /* text */
#define NONTREFALCU_TYPE_MEMBER_NAME 13u     /* text; this and the next are 0 for the type of a variable */
#define NONTREFALCU_TYPE_MEMBER_OFFSET 16u

/* What nontrefalcu_parse_type hands out */
#define NONTREFALCU_SPELLING_WORDS 5u
#define NONTREFALCU_SPELLING_CLASS 0u
#define NONTREFALCU_SPELLING_BASE 1u
#define NONTREFALCU_SPELLING_ROWS 2u
#define NONTREFALCU_SPELLING_COLUMNS 3u
#define NONTREFALCU_SPELLING_ELEMENTS 4u

/* What nontrefalcu_write_payload hands out */
#define NONTREFALCU_PAYLOAD_WORDS 2u
#define NONTREFALCU_PAYLOAD_WHICH 0u         /* one of the next two */
#define NONTREFALCU_PAYLOAD_LENGTH 1u        /* bytes of it */
#define NONTREFALCU_PAYLOAD_IS_CHUNK 0u
#define NONTREFALCU_PAYLOAD_IS_OUTPUT 1u

/* ---- Refusals ---- */

#define NONTREFALCU_OK 0u
#define NONTREFALCU_CHUNK_TOO_SHORT 1u       /* chunk under 28 bytes */
#define NONTREFALCU_CHUNK_TOO_LONG 2u        /* chunk over 65,536 bytes */
#define NONTREFALCU_BAD_VERSION 3u           /* major version not 4 or 5 */
#define NONTREFALCU_BAD_CREATOR 4u           /* creator past the end, without NUL or not UTF-8 */
#define NONTREFALCU_NO_RD11 5u               /* major 5 under 60 bytes */
#define NONTREFALCU_BAD_RD11 6u              /* an RD11 word not allowed */
#define NONTREFALCU_RECORD_PAST_END 7u       /* a record or descriptor runs past the chunk */
#define NONTREFALCU_BAD_INPUT_TYPE 8u        /* input type above 13 */
#define NONTREFALCU_BAD_DIMENSION 9u         /* dimension above 11 */
#define NONTREFALCU_BAD_BINDING_FLAGS 10u    /* binding flags outside 0x1f */
#define NONTREFALCU_BAD_NAME 11u             /* another string is bad, as in 4 */
#define NONTREFALCU_DEFAULT_PAST_END 12u     /* a default value runs past the chunk */
#define NONTREFALCU_TYPE_TOO_DEEP 13u        /* type depth above 64, root at 0 */
#define NONTREFALCU_TYPE_CYCLE 14u           /* descriptor already on the path */
#define NONTREFALCU_NO_ROOM 15u              /* no room for one more record or node, or scratch too short */
#define NONTREFALCU_NOT_READABLE 16u         /* reflection not readable; a name out of place or not UTF-8 */
#define NONTREFALCU_OUTPUT_TOO_SMALL 17u     /* output too small, or over 65,536 bytes */
#define NONTREFALCU_NO_SPELLING 18u          /* no spelling, or spelling not understood */

/* ---- Functions ---- */

/*
 * Reads a chunk. The header needs 12 words: fewer keep what fits. A table's room is the smaller of the limit and its whole records.
 * 0: the header's words, and the records of each table from its first word on; all other words of the five are 0. Names and default values lie
 *    in the chunk, which the caller keeps.
 * 1 to 15: all words of the five are 0.
 */
uint32_t nontrefalcu_parse_rdef(const uint8_t *chunk, size_t chunk_len,
                                uint32_t *header, size_t header_len,
                                uint32_t *bindings, size_t bindings_len,
                                uint32_t *buffers, size_t buffers_len,
                                uint32_t *variables, size_t variables_len,
                                uint32_t *types, size_t types_len);

/*
 * Writes the canonical form of a reflection: what nontrefalcu_parse_rdef left in a header and four tables, unchanged or with names and default
 * values that lie in `edits`. The counts are those of the header; scratch needs NONTREFALCU_SCRATCH_WORDS. What is sent to others should come
 * from here and not from nontrefalcu_write_payload: only of this is it proved that nothing depends on default values but their own bytes.
 * 0: the bytes at the start of `out`, the rest of it as it was; length[0] has how many; scratch and further words of `length` are 0.
 * 15 (short scratch), 16, 17, tested in this order: `scratch`, `out` and `length` are 0.
 */
uint32_t nontrefalcu_write_canonical(const uint8_t *chunk, size_t chunk_len,
                                     const uint8_t *edits, size_t edits_len,
                                     const uint32_t *header, size_t header_len,
                                     const uint32_t *bindings, size_t bindings_len,
                                     const uint32_t *buffers, size_t buffers_len,
                                     const uint32_t *variables, size_t variables_len,
                                     const uint32_t *types, size_t types_len,
                                     uint32_t *scratch, size_t scratch_len,
                                     uint8_t *out, size_t out_len,
                                     uint32_t *length, size_t length_len);

/*
 * Writes the payload of a reflection: the chunk itself where the chunk reads as just this reflection, else the canonical form. The four `found`
 * tables are room to read the chunk into again: tables for the whole room. Scratch needs NONTREFALCU_SCRATCH_WORDS.
 * 0 with answer[0] = NONTREFALCU_PAYLOAD_IS_CHUNK: the payload is `chunk`, answer[1] its length; `out` is as it was.
 * 0 with answer[0] = NONTREFALCU_PAYLOAD_IS_OUTPUT: the payload is the first answer[1] bytes of `out`, the rest of it is as it was.
 *   In both cases scratch, the `found` tables and further words of `answer` are 0.
 * 15, 16, 17, tested in this order: `scratch`, the `found` tables, `out` and `answer` are 0.
 */
uint32_t nontrefalcu_write_payload(const uint8_t *chunk, size_t chunk_len,
                                   const uint8_t *edits, size_t edits_len,
                                   const uint32_t *header, size_t header_len,
                                   const uint32_t *bindings, size_t bindings_len,
                                   const uint32_t *buffers, size_t buffers_len,
                                   const uint32_t *variables, size_t variables_len,
                                   const uint32_t *types, size_t types_len,
                                   uint32_t *found_bindings, size_t found_bindings_len,
                                   uint32_t *found_buffers, size_t found_buffers_len,
                                   uint32_t *found_variables, size_t found_variables_len,
                                   uint32_t *found_types, size_t found_types_len,
                                   uint32_t *scratch, size_t scratch_len,
                                   uint8_t *out, size_t out_len,
                                   uint32_t *answer, size_t answer_len);

/*
 * Lists a binding, given by its record's 12 words: the line, without a line feed.
 * 0: the line at the start of `out`, the rest of it as it was; length[0] has its bytes, further words of `length` are 0.
 * 16 (name out of place or not UTF-8), 17: `out` and `length` are 0.
 */
uint32_t nontrefalcu_list_binding(const uint8_t *chunk, size_t chunk_len,
                                  const uint8_t *edits, size_t edits_len,
                                  const uint32_t *binding_words, size_t binding_words_len,
                                  uint8_t *out, size_t out_len,
                                  uint32_t *length, size_t length_len);

/*
 * Spells a type, given by its node's 17 words: `float4[10]`.
 * 0: the text at the start of `out`, the rest of it as it was; length[0] has its bytes, further words of `length` are 0.
 * 16, 18 (no spelling), 17, tested in this order: `out` and `length` are 0.
 */
uint32_t nontrefalcu_type_name(const uint8_t *chunk, size_t chunk_len,
                               const uint8_t *edits, size_t edits_len,
                               const uint32_t *type_words, size_t type_words_len,
                               uint8_t *out, size_t out_len,
                               uint32_t *length, size_t length_len);

/*
 * The declaration of a variable, given by its record's 13 words and the 17 of its type's first node: `float4[10] glyphs;`.
 * 0: the text at the start of `out`, the rest of it as it was; length[0] has its bytes, further words of `length` are 0.
 * 16, 18 (no spelling), 17, tested in this order: `out` and `length` are 0.
 */
uint32_t nontrefalcu_declaration(const uint8_t *chunk, size_t chunk_len,
                                 const uint8_t *edits, size_t edits_len,
                                 const uint32_t *type_words, size_t type_words_len,
                                 const uint32_t *variable_words, size_t variable_words_len,
                                 uint8_t *out, size_t out_len,
                                 uint32_t *length, size_t length_len);

/*
 * Reads the spelling of a type.
 * 0: class, base, rows, columns and elements in the first five words of `numbers`; further words are 0.
 * 18: `numbers` is 0.
 */
uint32_t nontrefalcu_parse_type(const uint8_t *text, size_t text_len, uint32_t *numbers, size_t numbers_len);

/*
 * The sentence of a refusal, without a full stop; the empty text for a number that is none.
 * 0: the text at the start of `out`, the rest of it as it was; length[0] has its bytes, further words of `length` are 0.
 * 17: `out` and `length` are 0.
 */
uint32_t nontrefalcu_refusal_text(uint32_t number, uint8_t *out, size_t out_len, uint32_t *length, size_t length_len);

#ifdef __cplusplus
}
#endif

#endif
