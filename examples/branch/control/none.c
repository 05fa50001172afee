/* No control socket. */
#include "../control.h"

const char *const control_option = NULL;

int control_answer(int control, struct relay *relay)
{
    (void)control;
    (void)relay;
    return 1;
}
