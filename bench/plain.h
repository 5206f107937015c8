/* The calls of plain.c beside the library's in one program: bench/run compiles plain.c with these names. */
#ifndef PLAIN_H
#define PLAIN_H

#include "../include/piecebook.h"

extern __typeof__(piecebook_answer_with) plain_answer_with;
extern __typeof__(piecebook_index_with) plain_index_with;
extern __typeof__(piecebook_grid_with) plain_grid_with;
extern __typeof__(piecebook_start_with) plain_start_with;
extern __typeof__(piecebook_add_with) plain_add_with;
extern __typeof__(piecebook_withdraw_with) plain_withdraw_with;
extern __typeof__(piecebook_ask_with) plain_ask_with;
extern __typeof__(piecebook_convert_with) plain_convert_with;
extern __typeof__(piecebook_catalog_with) plain_catalog_with;
extern __typeof__(piecebook_fact_between) plain_fact_between;
extern __typeof__(piecebook_subtree) plain_subtree;
extern __typeof__(piecebook_replicates_with) plain_replicates_with;
extern __typeof__(piecebook_compare_with) plain_compare_with;
piecebook_result plain_judge_with(const uint8_t *book, size_t book_length, uint64_t *e, uint64_t *d, uint64_t *t);
extern __typeof__(piecebook_chain_check_with) plain_chain_check_with;
extern __typeof__(piecebook_clash_check_with) plain_clash_check_with;
extern __typeof__(piecebook_read_text) plain_read_text;
extern __typeof__(piecebook_text_line) plain_text_line;
extern __typeof__(piecebook_show) plain_show;
extern __typeof__(piecebook_show_claims) plain_show_claims;

#endif
