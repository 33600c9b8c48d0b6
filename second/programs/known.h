/* How the programs here end: main answers how many of its results are wrong. What is right is known from elsewhere.
   With BROKEN as 1 every result is asked to be something else, which shows that the programs can fail. */

#ifndef BROKEN
#define BROKEN 0
#endif

#define WRONG(result, known) ((result) != (known) + BROKEN)
