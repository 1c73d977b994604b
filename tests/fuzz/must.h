/* What has to hold for every input. */
#ifndef FUZZ_MUST_H
#define FUZZ_MUST_H

/* Names what is being tried, for the words of a finding. */
void trying(const char *what);

/* Ends the program as a finding, with what was being tried, where it is not so. */
void must(int so, const char *format, ...);

#endif
