// Ticks a table whose deadline is four times the period, from C++: its task has several live jobs at once. Prints a line for each tick.
#include "milltundra.h"
#include <cstdio>
#include <cstring>
#include <vector>

namespace {

// One processor; one task of one step of 3 ticks, D 8 and T 2.
const std::vector<uint8_t> file = {0x54, 0x42, 1, 1, 0x54, 0x4B, 1, 0, 8, 0, 0, 0, 2, 0, 0, 0, 3, 0, 0, 0};

int live_jobs(const mt_task_state &task) {
    int live = 0;
    for (uint8_t job : task.live)
        live += job;
    return live;
}

} // namespace

int main() {
    mt_state state = mt_open(file.data(), file.size(), 0).state;
    for (;;) {
        const uint16_t releases = state.tasks[0].wait == 0;
        const mt_ticked next = mt_tick(file.data(), file.size(), state, releases);
        const mt_tick_answer answer = mt_tick_in_place(&state, file.data(), file.size(), releases);
        // No struct has padding, so that equal ones are equal bytes.
        if (std::memcmp(&next.state, &state, sizeof state) != 0 || std::memcmp(&next.answer, &answer, sizeof answer) != 0) {
            std::puts("a tick in place is another one");
            return 1;
        }
        std::printf("clock %u ran %d.%d.%d live %d\n", static_cast<unsigned>(state.clock), answer.ran[0].task, answer.ran[0].age,
                    answer.ran[0].vertex, live_jobs(state.tasks[0]));
        if (answer.number != MT_OK)
            return answer.number == MT_TICK_MISSED ? 0 : 1;
    }
}
