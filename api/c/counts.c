/* Reads the first record on standard input, with the word `strict` strictly, and prints the answer's number, the place after it and how much it has of what; or the number,
 * the line that it is about and where that begins. Status 0: it was read. */
#include <stdio.h>
#include <stdlib.h>
#include <string.h>

#include "../vilggodan.h"

/* One byte more than reading takes, so that a longer input is answered by 3. */
enum { MOST = 16777216 + 1 };

/* Rooms are never NULL, also where nothing is asked for. */
static void *room(size_t count, size_t size) {
    void *cells = calloc(count + 1, size);
    if (cells == NULL) {
        fputs("counts: no memory\n", stderr);
        exit(3);
    }
    return cells;
}

int main(int count, char **words) {
    bool strict = count > 1 && strcmp(words[1], "strict") == 0;
    uint8_t *input = room(MOST, 1), no_byte[1];
    size_t length = fread(input, 1, MOST, stdin), no_number[1];
    struct vilggodan_feature no_feature[1];
    struct vilggodan_reading answer =
        vilggodan_read(input, length, 0, strict, no_byte, 0, no_number, 0, no_number, 0, no_feature, 0, no_number, 0, no_number, 0, no_byte, 0);
    if (answer.number == 6) {
        struct vilggodan_sizes n = answer.sizes;
        answer = vilggodan_read(
            input, length, 0, strict,
            room(n.texts, 1), n.texts,
            room(n.references, 14 * sizeof(size_t)), 14 * n.references,
            room(n.comments, 2 * sizeof(size_t)), 2 * n.comments,
            room(n.features, sizeof(struct vilggodan_feature)), n.features,
            room(n.qualifiers, 4 * sizeof(size_t)), 4 * n.qualifiers,
            room(n.locations, 7 * sizeof(size_t)), 7 * n.locations,
            room(n.letters, 1), n.letters);
    }
    if (answer.line != 0) {
        printf("number %zu, line %zu, which begins at byte %zu\n", answer.number, answer.line, answer.offset);
        return 1;
    }
    printf("number %zu, place %zu: references %zu, comments %zu, features %zu, letters %zu\n",
        answer.number, answer.place, answer.head[25], answer.head[26], answer.head[27], answer.head[32]);
    return answer.number != 0;
}
