/*
 * wallathi_text: the numbers that the functions of wallathi.h and wallathi_index.h answer, in words.
 *
 * Plain C beside the proved libraries; neither needs it.
 *
 * Link libwallathi_text.a.
 */
#ifndef WALLATHI_TEXT_H
#define WALLATHI_TEXT_H

#include <stdint.h>

#ifdef __cplusplus
extern "C" {
#endif

/*
 * What a number says, in one line without a full stop. One that no function answers is "unknown code". The text lives as long as the
 * program does.
 */
const char *wallathi_refusal_text(uint32_t code);

#ifdef __cplusplus
}
#endif

#endif
