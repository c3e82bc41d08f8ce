// futures: threads that C++ begins once a future has come, each of which writes lines to the file `log` under a mutex of the library. The first thread
// waits for them by a condition variable, and syncs what is there. For futures the library makes the system's calls itself. It ends with 0 if all went as it
// should.
#include <condition_variable>
#include <fcntl.h>
#include <future>
#include <mutex>
#include <string>
#include <unistd.h>
#include <vector>

namespace {

constexpr int threads = 3, rounds = 4;
std::mutex mutex;
std::condition_variable changed;
int file, written;

bool say(const std::string &line) { return write(file, line.data(), line.size()) == static_cast<ssize_t>(line.size()); }

bool store(const std::string &name) {
    bool done = true;
    for (int i = 0; i < rounds; i++) {
        std::lock_guard lock(mutex);
        done = say(name + std::to_string(i) + "\n") && done;
        written++;
        changed.notify_one();
    }
    return done;
}

bool sync_all() {
    bool done = true;
    std::unique_lock lock(mutex);
    for (int synced = 0; synced < threads * rounds;) {
        changed.wait(lock, [&] { return written > synced; });
        synced = written;
        lock.unlock();
        done = say("sync\n") && !fsync(file) && done;
        lock.lock();
    }
    return done;
}

} // namespace

int main() {
    file = open("log", O_RDWR | O_CREAT | O_APPEND, 0644);
    std::promise<void> may_begin;
    std::shared_future<void> begins(may_begin.get_future());
    std::vector<std::future<bool>> all;
    for (int i = 0; i < threads; i++)
        all.push_back(std::async(std::launch::async, [=] {
            begins.wait();
            return store(std::string(1, static_cast<char>('a' + i)));
        }));
    bool done = file >= 0 && say("main\n");
    may_begin.set_value();
    done = sync_all() && done;
    for (auto &each : all) done = each.get() && done;
    return !done;
}
