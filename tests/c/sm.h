/* The charts inside SM files. */
#ifndef SM_H
#define SM_H

/* Checks padcheck_sm_chart on files made by hand, each on the heap in its exact length. */
void check_sm_files(void);

#endif
