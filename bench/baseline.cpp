// baseline JOB..: for each job text the number of chosen pins, the greatest number and the time, by the plain router.
#include "baseline.h"

#include <chrono>
#include <fstream>
#include <iterator>

int main(int count, char **names) {
    using clock = std::chrono::steady_clock;
    for (int i = 1; i < count; i++) {
        std::ifstream file(names[i], std::ios::binary);
        const std::string text{std::istreambuf_iterator<char>(file), {}};
        const auto start = clock::now();
        baseline::Job job;
        if (!baseline::read(text, job)) {
            std::printf("%s wrong text\n", names[i]);
            continue;
        }
        const baseline::Answer answer = baseline::route(job);
        const double taken = std::chrono::duration<double, std::micro>(clock::now() - start).count();
        std::printf("%s chosen %d greatest %d %.0f us\n", names[i], answer.chosen, answer.greatest, taken);
    }
}
