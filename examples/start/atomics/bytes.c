#include "narrow.h"

ALL_OF(1, uint8_t)
