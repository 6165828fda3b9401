/* The stored sample of the Rust's answers, crates/replay_charts/stdin. */
#ifndef STORED_H
#define STORED_H

/* Asks every call about every text of the sample and checks the answers. */
void check_stored(const char *path);

#endif
