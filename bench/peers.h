/*
 * What the harness is linked with beside the library: the three Rust programs (peers.rs), with the arguments and the answers of segrunov_price and
 * segrunov_write on inputs that are in order, and the two decoders (decoders.c).
 */
#ifndef PEERS_H
#define PEERS_H

#include <stddef.h>
#include <stdint.h>

uint64_t ordinary_price(uint32_t code, uint32_t bytes, uint32_t strips, const uint8_t *page, size_t page_len, const uint8_t *data, size_t data_len);
uint64_t ordinary_write(uint32_t code, uint32_t bytes, uint32_t strips, uint8_t *page, size_t page_len, const uint8_t *data, size_t data_len);

uint64_t shaped_price(uint32_t code, uint32_t bytes, uint32_t strips, const uint8_t *page, size_t page_len, const uint8_t *data, size_t data_len);
uint64_t shaped_write(uint32_t code, uint32_t bytes, uint32_t strips, uint8_t *page, size_t page_len, const uint8_t *data, size_t data_len);

uint64_t narrow_price(uint32_t code, uint32_t bytes, uint32_t strips, const uint8_t *page, size_t page_len, const uint8_t *data, size_t data_len);
uint64_t narrow_write(uint32_t code, uint32_t bytes, uint32_t strips, uint8_t *page, size_t page_len, const uint8_t *data, size_t data_len);

/* Which of the FORMS forms of their stage the shaped and the narrow program take from now on. */
enum { FORMS = 3 };
void choose_form(size_t form);

/* The shapes of the long code's search that were tried (narrow/tried.rs): the name of one, NULL beyond the last, and its two calls. */
const char *tried_name(size_t shape);
uint64_t tried_price(size_t shape, uint32_t bytes, const uint8_t *page, size_t page_len, const uint8_t *data, size_t data_len);
uint64_t tried_write(size_t shape, uint32_t bytes, uint8_t *page, size_t page_len, const uint8_t *data, size_t data_len);

/* A decoder's work is BLOCKS blocks of STAGES stages, as many as the largest page has strips and a strip of it stages. */
enum { BLOCKS = 64, STAGES = 512 };

/* Encodes new data for both decoders, as soft bits in the form of each. */
void decoders_prepare(uint64_t seed);

/* Each decodes all blocks, the way back through the states included. */
void libosmocore_decode(void);
void libfec_decode(void);

/* Whether the last decoding gave the data back; the answers are cleared. */
int libosmocore_right(void);
int libfec_right(void);

#endif
