/* The parts of the edge-case run. */
#ifndef EDGES_H
#define EDGES_H

void lengths(void);   /* every length of small traces, and wrong arguments */
void answers(void);   /* what the small traces answer */
void bases(void);     /* which bases there are, and what an R line says in each */
void tables(void);    /* the frame table into records that hold a pattern */
void partial(void);   /* frame n of files that are at fault elsewhere, or in it */
void marks(void);     /* cuts, joins and pairs of traces with the end mark and without */
void registers(void); /* frames with a second register block, and their neighbours */
void variables(void); /* which block of a variable counts */
void limits(void);    /* the longest file and one byte more */
void dats(void);      /* trace.dat headers */
void overlaps(void);  /* CPU ranges that touch and overlap, in the longest file */

#endif
