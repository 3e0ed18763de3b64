#include "narrow.h"

ALL_OF(2, uint16_t)
