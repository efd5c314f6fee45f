#include "../../system.h"
