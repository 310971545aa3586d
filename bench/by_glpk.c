/* The shortest list as an integer programme: boxes inside the class are chosen, as few as can be, so that each combination of it is in exactly one. */
#include "by_glpk.h"
#include <glpk.h>

static uint32_t set_of(unsigned box)
{
    uint32_t s = 0;
    for (unsigned c = 0; c < 32; c++) {
        int in = 1;
        for (unsigned i = 0, x = box; i < 5; i++, x /= 3)
            in = in && (x % 3 == 2 || x % 3 == (c >> i & 1));
        s |= (uint32_t)in << c;
    }
    return s;
}

/* A row for each combination of the class, a column for each box inside it. */
static glp_prob *programme(uint32_t class)
{
    static uint32_t sets[243];
    int row[32];
    glp_prob *p = glp_create_prob();
    for (unsigned b = 0; sets[242] == 0 && b < 243; b++)
        sets[b] = set_of(b);
    glp_set_obj_dir(p, GLP_MIN);
    for (unsigned c = 0; c < 32; c++)
        if (class >> c & 1) {
            row[c] = glp_add_rows(p, 1);
            glp_set_row_bnds(p, row[c], GLP_FX, 1, 1);
        }
    for (unsigned b = 0; b < 243; b++)
        if ((sets[b] & class) == sets[b]) {
            int column = glp_add_cols(p, 1), n = 0, rows[33];
            double ones[33];
            for (unsigned c = 0; c < 32; c++)
                if (sets[b] >> c & 1) {
                    rows[++n] = row[c];
                    ones[n] = 1;
                }
            glp_set_mat_col(p, column, n, rows, ones);
            glp_set_obj_coef(p, column, 1);
            glp_set_col_kind(p, column, GLP_BV);
        }
    return p;
}

size_t glpk_length(uint32_t class)
{
    glp_iocp how;
    glp_prob *p = programme(class);
    glp_init_iocp(&how);
    how.msg_lev = GLP_MSG_OFF;
    glp_term_out(GLP_OFF);
    glp_simplex(p, NULL);
    glp_intopt(p, &how);
    size_t length = (size_t)(glp_mip_obj_val(p) + 0.5);
    glp_delete_prob(p);
    return length;
}
