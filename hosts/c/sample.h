/* Document 01's sample beam, as the text of a card and as a list of doubles. tools/stored_answers.py --write writes it. */
#ifndef SAMPLE_H
#define SAMPLE_H

#define AGES 3

static const char card[] =
    "             2             1        240000        120000             0             0        102400\n"
    "             2             1      28000000       3500000       4000000          3072\n"
    "        131072       1048576             0          1024             0\n"
    "            24            24             0             0             0             3             0\n"
    "           744             0\n"
    "          8784             0\n"
    "        438000             0\n";

static const double list[] = {
    2, 1, 240000, 120000, 0, 0, 100,
    2, 1, 28000000, 3500000, 4000000, 3,
    128, 1024, 0, 1, 0,
    24, 24, 0, 0, 0, 3, 0,
    744, 0,
    8784, 0,
    438000, 0,
};

#endif
