// tanks.lus in C, from the text to the report: a reader written by hand reads the text in pieces,
// each instant is evaluated once its record has been read, and only names and verdicts are kept.
#define main evaluate_rows
#include "../integers/tanks.c"
#undef main

enum { PIECE = 1 << 18, NAME = 64 };

static char piece[PIECE];
static size_t piece_length, place;
static FILE *text;

// The next byte of the text; EOF after its last one.
static inline int next(void) {
    if (place == piece_length) {
        piece_length = fread(piece, 1, PIECE, text);
        place = 0;
        if (piece_length == 0) return EOF;
    }
    return (unsigned char)piece[place++];
}

static inline int32_t next_cell(void) {
    int byte = next();
    bool is_negative = byte == '-';
    int32_t value = 0;
    if (is_negative) byte = next();
    while (byte >= '0' && byte <= '9') {
        value = 10 * value + (byte - '0');
        byte = next();
    }
    return is_negative ? -value : value;
}

// Reads the bytes up to the next comma into name; false after the last record.
static bool next_name(char *name) {
    size_t length = 0;
    int byte = next();
    while (byte != ',' && byte != '\n' && byte != EOF && length < NAME) {
        name[length++] = byte;
        byte = next();
    }
    name[length] = 0;
    return byte == ',';
}

static void tell(const char *name, enum verdict verdict, long instant, long *totals) {
    static const char *words[VERDICTS] = {"passed", "fault", "assertion", "false"};
    totals[verdict]++;
    if (verdict == PASSED) printf("%s passed\n", name);
    else printf("%s %s %ld\n", name, words[verdict], instant);
}

int main(int argc, char **argv) {
    long totals[VERDICTS] = {0}, all = 0, length = 0, instant = 0;
    char name[NAME + 1], last[NAME + 1] = "";
    enum verdict verdict = PASSED;
    struct farm farm;
    int byte;
    if (argc != 2) return 2;
    text = fopen(argv[1], "rb");
    if (!text) return 2;
    while ((byte = next()) != '\n' && byte != EOF) continue;
    while (next_name(name)) {
        int32_t row[COLUMNS];
        for (int c = 0; c < COLUMNS; c++) row[c] = next_cell();
        if (strcmp(name, last) != 0) {
            if (all++) tell(last, verdict, instant, totals);
            strcpy(last, name);
            memset(&farm, 0, sizeof farm);
            verdict = PASSED;
            length = instant = 0;
        }
        if (verdict == PASSED && (verdict = farm_step(&farm, row)) != PASSED) instant = length;
        length++;
    }
    if (all) tell(last, verdict, instant, totals);
    printf("total %ld passed %ld fault %ld undefined 0 assertion %ld false %ld\n", all,
           totals[PASSED], totals[FAULT], totals[ASSERTION], totals[FALSE_]);
    return 0;
}
