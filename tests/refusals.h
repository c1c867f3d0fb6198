/* Document 01's refusal numbers, in its words. Every test and every table of refusals takes them from here. */
#ifndef REFUSALS_H
#define REFUSALS_H

enum {
    ACCEPTED = 0,
    REFUSED_FIELD = 1,      /* q is none of the field sizes */
    REFUSED_SHAPE = 2,      /* n is outside 1 to 16 or k exceeds n */
    REFUSED_COUNT = 3,      /* N exceeds 2^64 - 1 */
    REFUSED_LENGTH = 4,     /* a lent buffer isn't exactly as long as it must be */
    REFUSED_INDEX = 5,      /* the index is N or more */
    REFUSED_ENTRY = 6,      /* an entry is q or more */
    REFUSED_UNREDUCED = 7,  /* the matrix isn't reduced */
    REFUSED_TOO_FEW = 8,    /* the span has fewer than k dimensions */
    REFUSED_TOO_MANY = 9,   /* the span has more than k dimensions */
    REFUSED_NUMBERING = 10, /* the numbering is neither 1 nor 2 */
    REFUSED_LINE = 11,      /* the list program's input isn't one line `q,n,k` */
    REFUSED_LISTING = 12,   /* N exceeds 65,536 */
    REFUSED_ROW_COUNT = 13, /* there are more than 64 rows */
    REFUSED_RECEIVER = 14,  /* the receiver is none that Start and Take can leave */
    REFUSED_MISMATCH = 16,  /* the receivers differ in q, n, k or pack */
    REFUSED_PACK = 17,      /* the row is offered for another pack */
    REFUSAL_LIMIT
};

#endif
