/* A yardstick for fault simulation in lanes: for each single stuck-at fault of a BLIF netlist, whose gates stand after what they read, the first
   vector that detects it.

     lanes points NET VEC     512 vectors a pass, and for each fault only the gates that read a signal that differs
     lanes faults NET VEC     512 faults a pass, a vector after another

   It prints the numbers of faults and of those that some vector detects, and the processor seconds without reading. bench/lanes.py compiles it. */
#include <stdint.h>
#include <stdio.h>
#include <stdlib.h>
#include <string.h>
#include <time.h>

enum { LANES = 512, WORDS = 8, PINS = 256, LINE = 1 << 16 };
typedef uint64_t lanes __attribute__((vector_size(64)));
typedef struct { int pins, rows, on, *pin; char **row; } gate;
typedef struct { char kind; int at, pin, value, first; } fault;

static char line[LINE], **names;
static int inputs, outputs, gates, faults, vectors, room;
static int *port, *start, *reader, *is_port;
static gate *net;
static fault *list;
static char **point;
static lanes *good, *now, zero;

static int *slots, mask;

static int number(const char *name) {
    unsigned h = 5381;
    for (const char *c = name; *c; c++) h = h * 33 + (unsigned char)*c;
    while (slots[h & mask] >= 0 && strcmp(names[slots[h & mask]], name)) h++;
    return h & mask;
}

static void named(const char *name, int signal) {
    names[signal] = strdup(name);
    slots[number(name)] = signal;
}

static void read_net(FILE *f) {
    char *outs[PINS];
    mask = (1 << 20) - 1, room = 1 << 18;
    slots = malloc(sizeof(int) << 20), names = calloc(room, sizeof(char *)), net = calloc(room, sizeof(gate));
    memset(slots, 255, sizeof(int) << 20);
    while (fgets(line, LINE, f)) {
        char *word[2 * PINS], *at = strtok(line, " \n");
        int n = 0;
        for (; at; at = strtok(NULL, " \n")) word[n++] = at;
        if (n == 0) continue;
        if (!strcmp(word[0], ".inputs")) for (int k = 1; k < n; k++) named(word[k], inputs++);
        else if (!strcmp(word[0], ".outputs")) for (int k = 1; k < n; k++) outs[outputs++] = strdup(word[k]);
        else if (!strcmp(word[0], ".names")) {
            gate *g = &net[gates];
            g->pins = n - 2, g->on = 1, g->pin = malloc(sizeof(int) * n);
            for (int k = 0; k < g->pins; k++) g->pin[k] = slots[number(word[k + 1])];
            named(word[n - 1], inputs + gates++);
        } else if (word[0][0] != '.') {
            gate *g = &net[gates - 1];
            g->row = realloc(g->row, sizeof(char *) * (g->rows + 1));
            g->on = word[n - 1][0] == '1', g->row[g->rows++] = strdup(n == 1 ? "" : word[0]);
        }
    }
    port = malloc(sizeof(int) * outputs);
    for (int o = 0; o < outputs; o++) port[o] = slots[number(outs[o])];
}

static void read_vectors(FILE *f) {
    int most = 0;
    while (fgets(line, LINE, f)) if (!strncmp(line, "vector ", 7)) {
        if (vectors == most) point = realloc(point, sizeof(char *) * (most = 2 * most + 64));
        point[vectors++] = strdup(strtok(line + 7, " "));
    }
}

static void add(char kind, int at, int pin) {
    for (int v = 0; v < 2; v++) list[faults++] = (fault){kind, at, pin, v, -1};
}

static void find_faults(void) {
    int signals = inputs + gates, pins = 0, *place;
    start = calloc(signals + 2, sizeof(int)), is_port = calloc(signals, sizeof(int));
    for (int i = 0; i < gates; i++) for (int k = 0; k < net[i].pins; k++) start[net[i].pin[k] + 1]++, pins++;
    for (int o = 0; o < outputs; o++) is_port[port[o]] = 1;
    list = malloc(sizeof(fault) * 2 * (signals + pins + outputs));
    for (int s = 0; s < signals; s++) if (start[s + 1] || is_port[s]) add('s', s, 0);
    for (int i = 0; i < gates; i++) for (int k = 0; k < net[i].pins; k++) add('p', i, k);
    for (int o = 0; o < outputs; o++) add('o', o, 0);
    for (int s = 0; s < signals; s++) start[s + 1] += start[s];
    reader = malloc(sizeof(int) * (pins + 1)), place = malloc(sizeof(int) * signals);
    memcpy(place, start, sizeof(int) * signals);
    for (int i = 0; i < gates; i++) for (int k = 0; k < net[i].pins; k++) reader[place[net[i].pin[k]]++] = i;
}

static lanes table(const gate *g, const lanes *seen) {
    lanes some = zero;
    for (int r = 0; r < g->rows; r++) {
        lanes all = ~zero;
        for (int k = 0; k < g->pins; k++) if (g->row[r][k] != '-') all &= g->row[r][k] == '1' ? seen[k] : ~seen[k];
        some |= all;
    }
    return g->on ? some : ~some;
}

static lanes value(int i, const lanes *words) {
    lanes seen[PINS];
    for (int k = 0; k < net[i].pins; k++) seen[k] = words[net[i].pin[k]];
    return table(&net[i], seen);
}

static int is_zero(lanes a) {
    uint64_t some = 0;
    for (int w = 0; w < WORDS; w++) some |= a[w];
    return !some;
}

static lanes full(int v) { return v ? ~zero : zero; }

static uint64_t *marks;
static int low, high, *changed, changes;

static void differs(int s, lanes word, lanes *told) {
    now[s] = word, changed[changes++] = s;
    if (is_port[s]) *told |= word ^ good[s];
    for (int q = start[s]; q < start[s + 1]; q++) {
        int w = reader[q] >> 6;
        marks[w] |= 1ull << (reader[q] & 63);
        low = w < low ? w : low, high = w > high ? w : high;
    }
}

static lanes cone(const fault *f) {
    lanes told = zero, held = full(f->value), seen[PINS], word = held;
    int s = f->at;
    if (f->kind == 'o') return good[port[f->at]] ^ held;
    low = gates, high = -1, changes = 0;
    if (f->kind == 'p') {
        for (int k = 0; k < net[f->at].pins; k++) seen[k] = good[net[f->at].pin[k]];
        seen[f->pin] = held, word = table(&net[f->at], seen), s = inputs + f->at;
    }
    if (!is_zero(word ^ good[s])) differs(s, word, &told);
    for (int w = low; w <= high; w++) while (marks[w]) {
        int i = w * 64 + __builtin_ctzll(marks[w]);
        marks[w] &= marks[w] - 1, word = value(i, now);
        if (!is_zero(word ^ good[inputs + i])) differs(inputs + i, word, &told);
    }
    while (changes) changes--, now[changed[changes]] = good[changed[changes]];
    return told;
}

static void by_points(void) {
    for (int base = 0; base < vectors; base += LANES) {
        int count = vectors - base < LANES ? vectors - base : LANES;
        for (int j = 0; j < inputs; j++) {
            good[j] = zero;
            for (int l = 0; l < count; l++) if (point[base + l][j] == '1') good[j][l >> 6] |= 1ull << (l & 63);
        }
        for (int i = 0; i < gates; i++) good[inputs + i] = value(i, good);
        memcpy(now, good, sizeof(lanes) * (inputs + gates));
        for (fault *f = list; f < list + faults; f++) if (f->first < 0) {
            lanes told = cone(f);
            for (int w = WORDS - 1; w >= 0; w--) if (told[w]) {
                int l = w * 64 + __builtin_ctzll(told[w]);
                f->first = l < count ? base + l : -1;
            }
        }
    }
}

static void by_faults(void) {
    fault *group[LANES];
    int *next = malloc(sizeof(int) * LANES), *stem = malloc(sizeof(int) * (inputs + gates)), *pin = malloc(sizeof(int) * gates);
    memset(stem, 255, sizeof(int) * (inputs + gates)), memset(pin, 255, sizeof(int) * gates);
    for (int p = 0; p < vectors; p++) {
        for (int j = 0; j < inputs; j++) good[j] = full(point[p][j] == '1');
        for (int i = 0; i < gates; i++) good[inputs + i] = value(i, good);
        for (fault *f = list; f < list + faults;) {
            int count = 0;
            for (; f < list + faults && count < LANES; f++) if (f->first < 0) {
                int *head = f->kind == 's' ? &stem[f->at] : f->kind == 'p' ? &pin[f->at] : NULL;
                if (head) next[count] = *head, *head = count;
                group[count++] = f;
            }
            for (int s = 0; s < inputs + gates; s++) {
                lanes word = good[s], seen[PINS];
                if (s >= inputs && pin[s - inputs] < 0) word = value(s - inputs, now);
                else if (s >= inputs) {
                    gate *g = &net[s - inputs];
                    for (int k = 0; k < g->pins; k++) seen[k] = now[g->pin[k]];
                    for (int l = pin[s - inputs]; l >= 0; l = next[l]) {
                        uint64_t bit = 1ull << (l & 63), *w = (uint64_t *)&seen[group[l]->pin] + (l >> 6);
                        *w = group[l]->value ? *w | bit : *w & ~bit;
                    }
                    pin[s - inputs] = -1, word = table(g, seen);
                }
                for (int l = stem[s]; l >= 0; l = next[l]) {
                    uint64_t bit = 1ull << (l & 63);
                    word[l >> 6] = group[l]->value ? word[l >> 6] | bit : word[l >> 6] & ~bit;
                }
                stem[s] = -1, now[s] = word;
            }
            lanes told = zero;
            for (int o = 0; o < outputs; o++) told |= now[port[o]] ^ good[port[o]];
            for (int l = 0; l < count; l++) {
                fault *g = group[l];
                int is = g->kind == 'o' ? (int)(good[port[g->at]][0] & 1) != g->value : (int)(told[l >> 6] >> (l & 63) & 1);
                if (is) g->first = p;
            }
        }
    }
}

int main(int n, char **word) {
    FILE *f = n == 4 ? fopen(word[2], "r") : NULL, *v = n == 4 ? fopen(word[3], "r") : NULL;
    if (!f || !v) return 2;
    read_net(f), read_vectors(v), find_faults();
    good = aligned_alloc(64, sizeof(lanes) * (inputs + gates)), now = aligned_alloc(64, sizeof(lanes) * (inputs + gates));
    marks = calloc(gates / 64 + 2, 8), changed = malloc(sizeof(int) * (inputs + gates));
    clock_t before = clock();
    if (!strcmp(word[1], "points")) by_points(); else by_faults();
    int told = 0;
    for (int k = 0; k < faults; k++) told += list[k].first >= 0;
    printf("faults %d told %d seconds %.4f\n", faults, told, (double)(clock() - before) / CLOCKS_PER_SEC);
    return 0;
}
