/* Makes a device line with a mark of its own: see mark.h. */
#include "mark.h"
#include "synthesis/raw.h"

int32_t synth_raw_line_new_marked(size_t room, uint64_t mark, struct synth_line_in *input,
                                  struct synth_line_out *output);

int32_t synth_raw_line_new(size_t room, struct synth_line_in *input, struct synth_line_out *output)
{
    return synth_raw_line_new_marked(room, synth_next_mark(), input, output);
}
