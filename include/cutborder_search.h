/* The search for the triangle that has a directed edge, for C: a list is linked once, then searched for any number of edges.
 *
 * It asks less of a list than packing does: 5 to 7 are not tested. Where an edge is in several triangles the last of them is found. So
 * a list that cutborder_check refuses with 5, 6 or 7 can be searched by whoever mends it.
 *
 * The refusals, what a caller owes and how to read the comments are in cutborder.h. Proved of the functions: crates/search. Link with
 * target/staticlib/libsearch.a, which `tools/build search` writes (x86-64).
 */
#ifndef CUTBORDER_SEARCH_H
#define CUTBORDER_SEARCH_H

#include <stddef.h>
#include <stdint.h>

#ifdef __cplusplus
extern "C" {
#endif

/* How many entries the links of a list have. */
#define CUTBORDER_LINKS 28672

/* Links a list: three vertex numbers for each triangle, of a model of v vertices.
 * Returns   0, or 1 to 4
 * Lent      list: list_entries numbers, which are only read; links: 28,672 entries, which may hold anything
 * Aligned   to 2: list, links
 * Accepted  links: those of the list
 * Refused   all is as it was
 * Stack     below 1 KiB */
uint32_t cutborder_link(size_t v, const uint16_t *list, size_t list_entries, uint16_t links[CUTBORDER_LINKS]);

/* Searches for the last triangle with the edge from p to q.
 * Returns   1 if a triangle has it, else 0
 * Lent      list, links: as cutborder_link left them, and only read; other links do no harm, but the answer is then any
 * Aligned   to 2: list, links, found
 * Found     found: the triangle's number, from 0, the corner across from the edge (0, 1 or 2) and the vertex there
 * Otherwise found is as it was
 * Stack     below 1 KiB */
uint32_t cutborder_search(const uint16_t *list, size_t list_entries, const uint16_t links[CUTBORDER_LINKS], uint16_t p, uint16_t q,
                          uint16_t found[3]);

#ifdef __cplusplus
}
#endif

#endif
