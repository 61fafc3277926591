/* Prints the variables of an RDEF chunk, offset, size and declaration, and writes its canonical form: variables CHUNK OUTPUT */
#include "nontrefalcu.h"
#include <stdio.h>

static uint8_t chunk[NONTREFALCU_LONGEST_CHUNK + 1], out[NONTREFALCU_LONGEST_OUTPUT];
static uint32_t header[NONTREFALCU_HEADER_WORDS], bindings[NONTREFALCU_BINDINGS_TABLE], buffers[NONTREFALCU_BUFFERS_TABLE];
static uint32_t variables[NONTREFALCU_VARIABLES_TABLE], types[NONTREFALCU_TYPES_TABLE], scratch[NONTREFALCU_SCRATCH_WORDS];
static uint32_t length[1];

static int refused(const char *file, uint32_t number)
{
    nontrefalcu_refusal_text(number, out, sizeof out, length, 1);
    fprintf(stderr, "%s: refused %u: %.*s\n", file, (unsigned)number, (int)length[0], (char *)out);
    return 1;
}

int main(int argc, char **argv)
{
    FILE *file = argc == 3 ? fopen(argv[1], "rb") : NULL;
    if (!file) return fprintf(stderr, "usage: variables CHUNK OUTPUT\n"), 2;
    size_t size = fread(chunk, 1, sizeof chunk, file);
    fclose(file);
    uint32_t number = nontrefalcu_parse_rdef(chunk, size, header, NONTREFALCU_HEADER_WORDS, bindings, NONTREFALCU_BINDINGS_TABLE,
        buffers, NONTREFALCU_BUFFERS_TABLE, variables, NONTREFALCU_VARIABLES_TABLE, types, NONTREFALCU_TYPES_TABLE);
    if (number != NONTREFALCU_OK) return refused(argv[1], number);

    const uint32_t *variable = variables, *type = types;
    for (uint32_t left = header[NONTREFALCU_HEADER_VARIABLE_COUNT]; left > 0; left--) {
        number = nontrefalcu_declaration(chunk, size, NULL, 0, type, NONTREFALCU_TYPE_WORDS, variable, NONTREFALCU_VARIABLE_WORDS,
            out, sizeof out, length, 1);
        printf("%u\t%u\t%.*s%s\n", (unsigned)variable[NONTREFALCU_VARIABLE_OFFSET], (unsigned)variable[NONTREFALCU_VARIABLE_SIZE],
            (int)length[0], (char *)out, number == NONTREFALCU_OK ? "" : "(no spelling)");
        variable += NONTREFALCU_VARIABLE_WORDS;
        /* The next variable's type is behind this one's nodes: the first, and as many more as the nodes have members. */
        for (uint32_t nodes = 1; nodes > 0; nodes--, type += NONTREFALCU_TYPE_WORDS) nodes += type[NONTREFALCU_TYPE_MEMBER_COUNT];
    }

    number = nontrefalcu_write_canonical(chunk, size, NULL, 0, header, NONTREFALCU_HEADER_WORDS, bindings, NONTREFALCU_BINDINGS_TABLE,
        buffers, NONTREFALCU_BUFFERS_TABLE, variables, NONTREFALCU_VARIABLES_TABLE, types, NONTREFALCU_TYPES_TABLE,
        scratch, NONTREFALCU_SCRATCH_WORDS, out, sizeof out, length, 1);
    if (number != NONTREFALCU_OK) return refused(argv[1], number);
    file = fopen(argv[2], "wb");
    if (!file || fwrite(out, 1, length[0], file) != length[0] || fclose(file) != 0) return perror(argv[2]), 1;
    printf("%u bytes in canonical form\n", (unsigned)length[0]);
    return 0;
}
