/* The commands by name. */
#ifndef NAMES_H
#define NAMES_H

#include "rig.h"

/* The name of one of the 26 commands, or NULL. */
const char *command_name(uint32_t code);

/* The name of a conversion, RIG_CONVERT_ADCV to RIG_CONVERT_ADCVSC. */
const char *conversion_name(uint32_t command);

#endif
