/* Prints how many bytes of stack each function uses on inputs that go as deep as any, and leaves such a chunk for the programs: stack CHUNK */
#define _XOPEN_SOURCE 600
#include "nontrefalcu.h"
#include <stdio.h>
#include <string.h>
#include <ucontext.h> /* a stack of our own, with nothing else on it */

enum { LEVELS = 65, STACK = 1 << 20, PATTERN = 0xa5 };

static unsigned char stack[STACK];
static uint8_t chunk[NONTREFALCU_LONGEST_CHUNK], out[NONTREFALCU_LONGEST_OUTPUT];
static size_t size;
static const uint8_t edits[] = "edited";
static uint32_t header[NONTREFALCU_HEADER_WORDS], bindings[NONTREFALCU_BINDINGS_TABLE], buffers[NONTREFALCU_BUFFERS_TABLE];
static uint32_t variables[NONTREFALCU_VARIABLES_TABLE], types[NONTREFALCU_TYPES_TABLE], scratch[NONTREFALCU_SCRATCH_WORDS];
static uint32_t found_bindings[NONTREFALCU_BINDINGS_TABLE], found_buffers[NONTREFALCU_BUFFERS_TABLE];
static uint32_t found_variables[NONTREFALCU_VARIABLES_TABLE], found_types[NONTREFALCU_TYPES_TABLE];
static uint32_t answer[NONTREFALCU_SPELLING_WORDS], number;

/* ---- The calls ---- */

#define TABLE(table) table, sizeof table / sizeof *table
#define REFLECTION chunk, size, edits, sizeof edits - 1, TABLE(header), TABLE(bindings), TABLE(buffers), TABLE(variables), TABLE(types)

static void nothing(void) { number = 0; }

static void parse(void)
{
    number = nontrefalcu_parse_rdef(chunk, size, TABLE(header), TABLE(bindings), TABLE(buffers), TABLE(variables), TABLE(types));
}

static void canonical(void) { number = nontrefalcu_write_canonical(REFLECTION, TABLE(scratch), TABLE(out), TABLE(answer)); }

static void payload(void)
{
    number = nontrefalcu_write_payload(REFLECTION, TABLE(found_bindings), TABLE(found_buffers), TABLE(found_variables), TABLE(found_types),
        TABLE(scratch), TABLE(out), TABLE(answer));
}

static void list(void)
{
    number = nontrefalcu_list_binding(chunk, size, NULL, 0, bindings, NONTREFALCU_BINDING_WORDS, TABLE(out), TABLE(answer));
}

static void spell(void) { number = nontrefalcu_type_name(chunk, size, NULL, 0, types, NONTREFALCU_TYPE_WORDS, TABLE(out), TABLE(answer)); }

static void declare(void)
{
    number = nontrefalcu_declaration(chunk, size, NULL, 0, types, NONTREFALCU_TYPE_WORDS, variables, NONTREFALCU_VARIABLE_WORDS,
        TABLE(out), TABLE(answer));
}

static void parse_type(void) { number = nontrefalcu_parse_type((const uint8_t *)"float4x4[10]", 12, TABLE(answer)); }

static void refusal_text(void) { number = nontrefalcu_refusal_text(NONTREFALCU_NOT_READABLE, TABLE(out), TABLE(answer)); }

/* ---- What a call uses ---- */

static ucontext_t here, there;

/* How far down a call changes a stack that holds nothing but the pattern. */
static size_t depth(void (*call)(void))
{
    memset(stack, PATTERN, sizeof stack);
    getcontext(&there);
    there.uc_stack.ss_sp = stack;
    there.uc_stack.ss_size = sizeof stack;
    there.uc_link = &here;
    makecontext(&there, call, 0);
    swapcontext(&here, &there);
    size_t lowest = 0;
    while (stack[lowest] == PATTERN) lowest++;
    return sizeof stack - lowest;
}

/* Prints what a call uses beyond one that does nothing. */
static int show(const char *name, const char *input, void (*call)(void), uint32_t expected)
{
    size_t base = depth(nothing), used = depth(call) - base;
    if (number != expected) return fprintf(stderr, "%s, %s: answered %u\n", name, input, (unsigned)number), 1;
    printf("%-30s%-58s%6u%8u\n", name, input, (unsigned)number, (unsigned)used);
    return 0;
}

/* ---- The inputs ---- */

static void put(size_t at, const uint32_t *words, size_t count)
{
    for (size_t i = 0; i < 4 * count; i++) chunk[at + i] = (uint8_t)(words[i / 4] >> 8 * (i % 4));
}

#define PUT(at, ...) put(at, (const uint32_t[]){__VA_ARGS__}, sizeof((const uint32_t[]){__VA_ARGS__}) / 4)

/* A chunk of major 5: one binding, and two variables whose types nest so many levels; columns of the innermost may differ. */
static void nest(uint32_t levels, uint32_t columns)
{
    const uint32_t name = 92, buffer = 96, variable = buffer + 24, type = variable + 2 * 40, none = 0xffffffff;
    memset(chunk, 0, sizeof chunk);
    size = type + 2 * levels * 48;
    PUT(0, 1, buffer, 1, 60, 0x500, 0, name, 0x31314452, 60, 24, 32, 40, 36, 12, 0);
    PUT(60, name, 2, 5, 4, none, 0, 1, 12);
    PUT(buffer, name, 2, variable, 32, 0, 0);
    for (uint32_t i = 0; i < 2; i++) {
        PUT(variable + 40 * i, name, 16 * i, 16, 2, type + i * levels * 48, 0, none, 0, none, 0);
        for (uint32_t level = 0; level < levels; level++) {
            uint32_t at = type + (i * levels + level) * 48, inner = level + 1 < levels;
            PUT(at, inner ? 5 : 1 | 3 << 16, 1 | (inner || !i ? 4 : columns) << 16, inner << 16, inner ? at + 36 : 0, 0, 0, 0, 0, name);
            PUT(at + 36, name, at + 48, 0);
        }
    }
    chunk[name] = 'n';
}

/* The tables of a chunk. */
static void read_nested(uint32_t columns)
{
    nest(LEVELS, columns);
    parse();
}

int main(int argc, char **argv)
{
    FILE *file = argc == 2 ? fopen(argv[1], "wb") : NULL;
    if (!file) return fprintf(stderr, "usage: stack CHUNK\n"), 2;
    nest(LEVELS, 3);
    if (fwrite(chunk, 1, size, file) != size || fclose(file) != 0) return perror(argv[1]), 1;

    int failed = 0;
    printf("%-30s%-58s%6s%8s\n", "function", "input", "answer", "bytes");
    failed |= show("nontrefalcu_parse_rdef", "two types of 65 levels", parse, NONTREFALCU_OK);
    nest(LEVELS + 1, 3);
    failed |= show("nontrefalcu_parse_rdef", "a type of 66 levels", parse, NONTREFALCU_TYPE_TOO_DEEP);

    read_nested(3);
    failed |= show("nontrefalcu_write_canonical", "two types of 65 levels that differ in the innermost", canonical, NONTREFALCU_OK);
    failed |= show("nontrefalcu_write_payload", "the same, unedited", payload, NONTREFALCU_OK);
    uint32_t *innermost = types + (2 * LEVELS - 1) * NONTREFALCU_TYPE_WORDS + NONTREFALCU_TYPE_MEMBER_NAME;
    innermost[NONTREFALCU_TEXT_SOURCE] = NONTREFALCU_SOURCE_EDITS;
    innermost[NONTREFALCU_TEXT_PLACE] = 0;
    innermost[NONTREFALCU_TEXT_LENGTH] = sizeof edits - 1;
    failed |= show("nontrefalcu_write_payload", "the same, the innermost member renamed", payload, NONTREFALCU_OK);
    nest(LEVELS + 1, 3);
    failed |= show("nontrefalcu_write_payload", "the same beside a chunk with a type of 66 levels", payload, NONTREFALCU_OK);
    read_nested(4);
    failed |= show("nontrefalcu_write_canonical", "two equal types of 65 levels", canonical, NONTREFALCU_OK);
    failed |= show("nontrefalcu_write_payload", "the same, unedited", payload, NONTREFALCU_OK);

    /* As many nodes as there may be, each in the one before. */
    header[NONTREFALCU_HEADER_VARIABLE_COUNT] = buffers[NONTREFALCU_BUFFER_VARIABLE_COUNT] = 1;
    header[NONTREFALCU_HEADER_TYPE_COUNT] = NONTREFALCU_MOST_TYPES;
    for (uint32_t i = 2; i < NONTREFALCU_MOST_TYPES; i++)
        memcpy(types + i * NONTREFALCU_TYPE_WORDS, types + NONTREFALCU_TYPE_WORDS, 4 * NONTREFALCU_TYPE_WORDS);
    failed |= show("nontrefalcu_write_canonical", "tables with a type of 4,096 levels", canonical, NONTREFALCU_NOT_READABLE);
    failed |= show("nontrefalcu_write_payload", "the same", payload, NONTREFALCU_NOT_READABLE);

    read_nested(3);
    types[NONTREFALCU_TYPE_CLASS] = 3; /* a matrix, which has the longest spelling */
    types[NONTREFALCU_TYPE_VAR_TYPE] = 3;
    types[NONTREFALCU_TYPE_ELEMENTS] = 10;
    failed |= show("nontrefalcu_list_binding", "a texture", list, NONTREFALCU_OK);
    failed |= show("nontrefalcu_type_name", "an array of matrices", spell, NONTREFALCU_OK);
    failed |= show("nontrefalcu_declaration", "the same", declare, NONTREFALCU_OK);
    failed |= show("nontrefalcu_parse_type", "an array of matrices", parse_type, NONTREFALCU_OK);
    failed |= show("nontrefalcu_refusal_text", "16", refusal_text, NONTREFALCU_OK);
    return failed;
}
