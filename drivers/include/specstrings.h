/* specstrings.h: annotations. */
#ifndef SPECSTRINGS_H
#define SPECSTRINGS_H

#include "wdm_annotations.h"

#endif
