/* Five mistakes that passes like the home-made one have made, each on a sample block. */
#ifndef NGULO_DEMO_MISTAKES_H
#define NGULO_DEMO_MISTAKES_H

/*
 * Tells each with what goes wrong. Answers a status: STATUS_REFUSED if a mistake shows no difference, or
 * ngulo_pass's block shows one.
 */
int tell_mistakes(const char *folder);

#endif
