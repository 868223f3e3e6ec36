// Reference search for worst-case response times, unverified: reads plan files (docs/plan-file.md) named on the command line and prints
// for each the figures of all tasks and the time used. With --brute before the names it follows the definition instead (small plans only).
#include <stdint.h>
#include <stdio.h>
#include <stdlib.h>
#include <string.h>
#include <time.h>

enum { MAX_TABLES = 4, MAX_POINTS = 32, MAX_TASKS = 16, MAX_CHOICES = 4096 };

typedef struct { uint32_t table, position; } Point;
typedef struct { uint32_t point, execution, deadline, priority; } Task;
typedef struct {
    uint32_t tables, points, tasks, hyperperiod;
    uint32_t duration[MAX_TABLES];
    Point point[MAX_POINTS];
    Task task[MAX_TASKS];
} Plan;

static uint32_t gcd(uint32_t a, uint32_t b) { while (b) { uint32_t r = a % b; a = b; b = r; } return a; }

static int read_plan(const char *path, Plan *p) {
    unsigned char b[1024];
    FILE *f = fopen(path, "rb");
    if (!f) return 0;
    size_t n = fread(b, 1, sizeof b, f), i = 0;
    fclose(f);
    memset(p, 0, sizeof *p);
    while (i < n && b[i] != 'E') {
        uint32_t w = i + 2 < n ? b[i + 1] * 256u + b[i + 2] : 0;
        if (b[i] == 'T') { p->duration[p->tables++] = w; i += 3; }
        else if (b[i] == 'P') { p->point[p->points++] = (Point){p->tables - 1, w}; i += 3; }
        else if (b[i] == 'D') { p->point[p->points] = (Point){p->tables - 1, p->point[p->points - 1].position + w}; p->points++; i += 3; }
        else if (b[i] == 'J') {
            p->task[p->tasks++] = (Task){p->points - 1, b[i + 5] * 256u + b[i + 6], b[i + 7] * 256u + b[i + 8], b[i + 9]};
            i += 10;
        } else return 0;
    }
    uint32_t h = 1;
    for (uint32_t k = 0; k < p->tables; k++) h = h / gcd(h, p->duration[k]) * p->duration[k];
    p->hyperperiod = h;
    return 1;
}

static uint32_t work(const Plan *p) {
    uint32_t w = 0;
    for (uint32_t k = 0; k < p->tasks; k++) w += p->task[k].execution * p->hyperperiod / p->duration[p->point[p->task[k].point].table];
    return w;
}

// ---- the fast search ----
typedef struct { uint32_t lead, cost, above; } Load;
typedef struct { uint32_t duration, count, phase_count; Load load[MAX_TASKS]; uint32_t phase[8]; } Group;
typedef struct { uint32_t phase[MAX_TABLES]; } Choice;
typedef struct { uint32_t tables, own, position, hyperperiod, choices; Group group[MAX_TABLES]; Choice choice[MAX_CHOICES]; } Search;
typedef struct { uint32_t figure, tick; Choice phases; } Worst;

static inline uint32_t part(const Group *g, uint32_t phase, uint32_t z, uint32_t u) {
    uint32_t sum = 0;
    for (uint32_t j = 0; j < g->count; j++) {
        const Load *l = &g->load[j];
        uint32_t s = phase + l->lead;
        if (s >= g->duration) s -= g->duration;
        sum += l->cost * ((s + (l->above ? z : u)) / g->duration);
    }
    return sum;
}

static uint32_t demand(const Search *s, const Choice *c, uint32_t x, uint32_t y) {
    uint32_t sum = 0;
    for (uint32_t i = 0; i < s->tables; i++) sum += part(&s->group[i], c->phase[i], x + y, x + 1);
    return sum;
}

static uint32_t reach(const Search *s, const Choice *c, uint32_t x) {
    uint32_t y = 1;
    for (;;) {
        uint32_t d = demand(s, c, x, y);
        if (d <= x + y) return y;
        y = d - x;
    }
}

static uint32_t own_phase(const Search *s, uint32_t x) {
    uint32_t d = s->group[s->own].duration;
    return (s->position + (d - x % d)) % d;
}

static int topped(const Search *s, uint32_t own, uint32_t x, uint32_t f) {
    uint32_t sum = 0;
    for (uint32_t i = 0; i < s->tables; i++) {
        const Group *g = &s->group[i];
        uint32_t top = 0;
        if (i == s->own) top = part(g, own, x + f, x + 1);
        else for (uint32_t j = 0; j < g->phase_count; j++) {
            uint32_t v = part(g, g->phase[j], x + f, x + 1);
            if (v > top) top = v;
        }
        sum += top;
    }
    return sum <= x + f;
}

static void prepare(const Plan *p, uint32_t t, Search *s) {
    uint32_t own = p->point[p->task[t].point].table;
    s->tables = p->tables; s->own = own; s->position = p->point[p->task[t].point].position; s->hyperperiod = p->hyperperiod;
    for (uint32_t i = 0; i < p->tables; i++) {
        Group *g = &s->group[i];
        g->duration = p->duration[i]; g->count = 0; g->phase_count = 0;
        for (uint32_t k = 0; k < p->tasks; k++) {
            Point q = p->point[p->task[k].point];
            if (q.table != i || p->task[k].priority > p->task[t].priority) continue;
            g->load[g->count++] = (Load){g->duration - 1 - q.position, p->task[k].execution, p->task[k].priority < p->task[t].priority};
        }
        for (uint32_t j = 0; j < p->points; j++) if (p->point[j].table == i) g->phase[g->phase_count++] = p->point[j].position;
    }
    s->choices = 1; memset(&s->choice[0], 0, sizeof s->choice[0]);
    static Choice next[MAX_CHOICES];
    for (uint32_t i = 0; i < p->tables; i++) {
        if (i == own) continue;
        uint32_t n = 0;
        for (uint32_t m = 0; m < s->choices; m++) for (uint32_t j = 0; j < s->group[i].phase_count; j++) {
            next[n] = s->choice[m]; next[n++].phase[i] = s->group[i].phase[j];
        }
        memcpy(s->choice, next, n * sizeof next[0]); s->choices = n;
    }
}

static Worst worst(const Search *s) {
    Worst w; w.tick = 0; w.phases = s->choice[0]; w.phases.phase[s->own] = own_phase(s, 0); w.figure = reach(s, &w.phases, 0);
    uint32_t end = w.figure;
    for (uint32_t x = 0; x + w.figure < s->hyperperiod; x++) {
        uint32_t own = own_phase(s, x);
        if (topped(s, own, x, w.figure)) continue;
        for (uint32_t m = 0; m < s->choices; m++) {
            Choice c = s->choice[m]; c.phase[s->own] = own;
            uint32_t v = end > x ? end - x : 1; if (v > w.figure) v = w.figure;
            if (demand(s, &c, x, v) <= x + v) continue;
            if (demand(s, &c, x, w.figure) <= x + w.figure) continue;
            uint32_t y = reach(s, &c, x);
            end = x + y;
            if (y > w.figure) { w.figure = y; w.tick = x; w.phases = c; }
        }
    }
    return w;
}

// ---- the definition as it stands ----
static uint32_t hits(const Plan *p, const uint32_t *phase, uint32_t k, uint32_t z) {
    Point q = p->point[p->task[k].point];
    uint32_t n = 0;
    for (uint32_t i = 0; i < z; i++) n += (phase[q.table] + i) % p->duration[q.table] == q.position;
    return n;
}

static uint32_t plain_reach(const Plan *p, uint32_t t, const uint32_t *phase, uint32_t x) {
    for (uint32_t y = 1;; y++) {
        uint32_t d = 0;
        for (uint32_t k = 0; k < p->tasks; k++) {
            uint32_t a = p->task[k].priority, l = p->task[t].priority;
            d += p->task[k].execution * (a < l ? hits(p, phase, k, x + y) : a == l ? hits(p, phase, k, x + 1) : 0);
        }
        if (d <= x + y) return y;
    }
}

static uint32_t brute_at(const Plan *p, uint32_t t, uint32_t i, uint32_t *phase, uint32_t x) {
    Point own = p->point[p->task[t].point];
    if (i == p->tables) return plain_reach(p, t, phase, x);
    if (i == own.table) {
        uint32_t d = p->duration[i];
        phase[i] = (own.position + d - x % d) % d;
        return brute_at(p, t, i + 1, phase, x);
    }
    uint32_t top = 0;
    for (uint32_t j = 0; j < p->points; j++) if (p->point[j].table == i) {
        phase[i] = p->point[j].position;
        uint32_t y = brute_at(p, t, i + 1, phase, x);
        if (y > top) top = y;
    }
    return top;
}

int main(int argc, char **argv) {
    int brute = argc > 1 && !strcmp(argv[1], "--brute");
    static Search s;
    for (int a = 1 + brute; a < argc; a++) {
        Plan p;
        if (!read_plan(argv[a], &p)) { printf("%s: not read\n", argv[a]); continue; }
        struct timespec b, e;
        clock_gettime(CLOCK_MONOTONIC, &b);
        uint32_t f[MAX_TASKS];
        int over = work(&p) > p.hyperperiod;
        if (!over) for (uint32_t t = 0; t < p.tasks; t++) {
            if (brute) {
                f[t] = 0;
                for (uint32_t x = 0; x < p.hyperperiod; x++) { uint32_t ph[MAX_TABLES]; uint32_t y = brute_at(&p, t, 0, ph, x); if (y > f[t]) f[t] = y; }
            } else { prepare(&p, t, &s); f[t] = worst(&s).figure; }
        }
        clock_gettime(CLOCK_MONOTONIC, &e);
        printf("%s:", argv[a]);
        if (over) printf(" overloaded"); else for (uint32_t t = 0; t < p.tasks; t++) printf(" %u", f[t]);
        if (!brute) printf("  (%.4f s)", (e.tv_sec - b.tv_sec) + (e.tv_nsec - b.tv_nsec) * 1e-9);
        printf("\n");
    }
}
