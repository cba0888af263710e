/* The pipeline of examples/five.lisa, written by hand in C: what a simulator of it does at best.

   five N CELL ..      makes N edges over a program memory that begins with these cells, in hexadecimal, and prints the state as
                       `lisa run` does */
#include <stdint.h>
#include <stdio.h>
#include <stdlib.h>

/* the fields of a boundary */
struct fields {
    uint8_t ir, res;
};

struct machine {
    uint8_t pc, R[4], prog[16];
    struct fields fe_dc, dc_ex, ex_me, me_wb;
    /* the words of the stages behind the root's */
    uint8_t ex, me, wb;
    /* what stands in the stages */
    uint8_t dc_decode, ex_addi, ex_br, me_write, wb_write;
};

static void edge(struct machine *m) {
    const struct machine old = *m;
    const struct fields none = {0, 0};
    if (old.wb_write) m->R[old.wb >> 5 & 3] = old.me_wb.res;
    m->me_wb = old.ex_me;
    m->ex_me = old.dc_ex;
    if (old.ex_addi) m->ex_me.res = (uint8_t)(m->R[old.ex >> 5 & 3] + (old.ex & 31));
    if (old.ex_br) m->pc = old.ex & 15;
    const int flushed = old.ex_br;
    const int decodes = old.dc_decode && !flushed;
    const uint8_t word = decodes ? old.fe_dc.ir : 0;
    m->dc_ex = flushed ? none : old.fe_dc;
    m->fe_dc = none;
    if (!flushed) {
        m->fe_dc.ir = m->prog[m->pc];
        m->pc = (m->pc + 1) & 15;
    }
    m->wb = old.me;
    m->me = old.ex;
    m->ex = word;
    m->wb_write = old.me_write;
    m->me_write = old.ex_addi;
    m->ex_addi = decodes && !(word & 128);
    m->ex_br = decodes && word & 128;
    m->dc_decode = !flushed;
}

static void show_fields(const char *name, struct fields f) {
    printf("%s.ir 0x%x\n%s.res 0x%x\n", name, f.ir, name, f.res);
}

static void show_cells(const char *name, const uint8_t *cells, int count) {
    for (int at = 0; at < count; at++)
        if (cells[at]) printf("%s[%d] 0x%x\n", name, at, cells[at]);
}

int main(int count, char **words) {
    static struct machine m;
    const unsigned long edges = count > 1 ? strtoul(words[1], NULL, 10) : 0;
    for (int at = 2; at < count && at < 18; at++) m.prog[at - 2] = (uint8_t)strtoul(words[at], NULL, 16);
    for (unsigned long made = 0; made < edges; made++) edge(&m);
    printf("edge %lu\npc 0x%x\n", edges, m.pc);
    show_fields("FE/DC", m.fe_dc);
    show_fields("DC/EX", m.dc_ex);
    show_fields("EX/ME", m.ex_me);
    show_fields("ME/WB", m.me_wb);
    printf("EX.word 0x%x\nME.word 0x%x\nWB.word 0x%x\n", m.ex, m.me, m.wb);
    printf("DC.decode.2 0x%x\nEX.addi.3 0x%x\nEX.br.5 0x%x\nME.write.4 0x%x\nWB.write.4 0x%x\n", m.dc_decode, m.ex_addi, m.ex_br, m.me_write, m.wb_write);
    show_cells("R", m.R, 4);
    show_cells("prog", m.prog, 16);
    return 0;
}
