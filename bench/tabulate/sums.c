/*
 * Adds the records of the benchmark up to the same two tables as argus does, in one pass, and writes them in the same
 * form: the peer that argus is timed against. It reads m.asc in the current folder and writes peer-t.csv and
 * peer-u.csv. It knows codes and places of the fields beforehand, and proves nothing.
 */
#include <stdio.h>
#include <stdlib.h>
#include <string.h>

enum { REGIONS = 16, INDUSTRIES = 25, SIZES = 5, RECORD = 14 };

static unsigned long long by_industry[REGIONS][INDUSTRIES];
static unsigned long long by_size[REGIONS][SIZES];

static void fault(const char *what, long record) {
    fprintf(stderr, "sums: record %ld: %s\n", record, what);
    exit(1);
}

/* The place of a region among the total, three parts, and four regions behind each part. */
static int region_place(const char *line, long record) {
    int number = 10 * (line[1] - '0') + (line[2] - '0');
    if (line[0] != 'R' || number < 1 || number > 12)
        fault("no such region", record);
    return 1 + 5 * ((number - 1) / 4) + 1 + (number - 1) % 4;
}

static int industry_place(const char *line, long record) {
    int letter = line[3] - 'A', digit = line[4] - '1';
    if (letter < 0 || letter > 3 || digit < 0 || digit > 4)
        fault("no such industry", record);
    return 1 + 6 * letter + 1 + digit;
}

static int size_place(const char *line, long record) {
    int digit = line[6] - '1';
    if (line[5] != 'S' || digit < 0 || digit > 3)
        fault("no such size", record);
    return 1 + digit;
}

static unsigned long long value_of(const char *line, long record) {
    unsigned long long value = 0;
    int at = 7;
    while (at < RECORD && line[at] == ' ')
        at++;
    if (at == RECORD)
        fault("no value", record);
    for (; at < RECORD; at++) {
        if (line[at] < '0' || line[at] > '9')
            fault("no number", record);
        value = 10 * value + (unsigned long long)(line[at] - '0');
    }
    return value;
}

static void add(const char *line, long record) {
    int region = region_place(line, record), industry = industry_place(line, record);
    int size = size_place(line, record);
    unsigned long long value = value_of(line, record);
    int regions[3] = {0, 1 + 5 * ((region - 1) / 5), region};
    int industries[3] = {0, 1 + 6 * ((industry - 1) / 6), industry};
    for (int r = 0; r < 3; r++) {
        for (int i = 0; i < 3; i++)
            by_industry[regions[r]][industries[i]] += value;
        by_size[regions[r]][0] += value;
        by_size[regions[r]][size] += value;
    }
}

static const char *region_code(int place, char *code) {
    if (place == 0)
        return "Total";
    int part = (place - 1) / 5, below = (place - 1) % 5;
    if (below == 0)
        sprintf(code, "P%d", part + 1);
    else
        sprintf(code, "R%02d", 4 * part + below);
    return code;
}

static const char *industry_code(int place, char *code) {
    if (place == 0)
        return "Total";
    int letter = (place - 1) / 6, digit = (place - 1) % 6;
    if (digit == 0)
        sprintf(code, "%c", 'A' + letter);
    else
        sprintf(code, "%c%d", 'A' + letter, digit);
    return code;
}

static const char *size_code(int place, char *code) {
    if (place == 0)
        return "Total";
    sprintf(code, "S%d", place);
    return code;
}

static FILE *created(const char *name) {
    FILE *file = fopen(name, "wb");
    if (!file) {
        perror(name);
        exit(1);
    }
    return file;
}

int main(void) {
    static char bytes[1 << 16];
    char region[8], other[8];
    size_t kept = 0, got;
    long record = 0;
    FILE *file = fopen("m.asc", "rb");
    if (!file) {
        perror("m.asc");
        return 1;
    }
    while ((got = fread(bytes + kept, 1, sizeof bytes - kept, file)) > 0) {
        char *line = bytes, *end = bytes + kept + got, *feed;
        while ((feed = memchr(line, '\n', (size_t)(end - line)))) {
            record++;
            if (feed - line != RECORD)
                fault("not of 14 bytes", record);
            add(line, record);
            line = feed + 1;
        }
        kept = (size_t)(end - line);
        memmove(bytes, line, kept);
    }
    if (ferror(file) || kept)
        fault("no line end", record + 1);
    FILE *first = created("peer-t.csv"), *second = created("peer-u.csv");
    fprintf(first, "Region,Industry,Value\n");
    fprintf(second, "Region,Size,Value\n");
    for (int r = 0; r < REGIONS; r++) {
        const char *code = region_code(r, region);
        for (int i = 0; i < INDUSTRIES; i++)
            fprintf(first, "%s,%s,%llu\n", code, industry_code(i, other), by_industry[r][i]);
        for (int s = 0; s < SIZES; s++)
            fprintf(second, "%s,%s,%llu\n", code, size_code(s, other), by_size[r][s]);
    }
    if (fclose(first) || fclose(second)) {
        perror("peer tables");
        return 1;
    }
    return 0;
}
