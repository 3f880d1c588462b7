/* Serves what a peer sent, from a file: the records go to one file, the answers to another.
 *     serve FILE RECORDS ANSWERS [PIECE [CREDIT [CONTAINER]]] */
#include "wuleshomia.h"
#include <stdio.h>
#include <stdlib.h>
#include <string.h>

int main(int argc, char **argv) {
    static uint8_t file[1 << 24], room[512];
    wule_endpoint e = WULE_ENDPOINT_INIT;
    wule_settings settings = WULE_SETTINGS_INIT;
    wule_rule rule = {16, 15, WULE_ACCEPTED};
    wule_step step = {{0, 0, 0, 0, 0, 0, 0, 0, 0}, 0, 0, 0, 0, 0, 0, 0, 0};
    size_t size, at = 0, piece, n;
    uint32_t code = WULE_OK;
    const char *container = argc > 6 ? argv[6] : "recv";
    FILE *in, *records, *answers;
    if (argc < 4 || !(in = fopen(argv[1], "rb")) || !(records = fopen(argv[2], "wb")) || !(answers = fopen(argv[3], "wb"))) return 2;
    size = fread(file, 1, sizeof file, in);
    piece = argc > 4 ? (size_t)atol(argv[4]) : sizeof file;
    if (argc > 5) rule.credit = (uint32_t)atol(argv[5]), rule.mark = rule.credit - 1;
    if (wule_open(&e, &settings, container, strlen(container), NULL, 0, NULL) != WULE_OK) return 2;
    while (at < size && step.fed.outcome != WULE_DEAD && code == WULE_OK) {
        size_t behind = size - at < piece ? size : at + piece;
        do {
            code = wule_serve_step(&e, &rule, file + at, behind - at, &step);
            if (code != WULE_OK) break;
            at += (size_t)step.fed.used;
            while ((n = wule_records(&e, room, sizeof room)) > 0) fwrite(room, 1, n, records);
            while ((n = wule_output(&e, room, sizeof room)) > 0) fwrite(room, 1, n, answers);
        } while (at < behind && step.fed.outcome != WULE_DEAD);
    }
    printf("%s, end %u\n", wule_code_text(code), (unsigned)wule_finish(&e, NULL));
    wule_free(&e);
    fclose(in), fclose(records), fclose(answers);
    return code == WULE_OK ? 0 : 3;
}
