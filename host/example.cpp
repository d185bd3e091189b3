// A small coordinator: four tasks of a simulator meet at two gates and drive into a ring, by calls. It asks who will
// never go on, names them in the ring's order, and shows that none of them can be let go.
#include <mollavisce.hpp>

#include <cstdio>
#include <cstdlib>

namespace {

using mollavisce::Answer, mollavisce::Called, mollavisce::Hall, mollavisce::Phase, mollavisce::Phaser, mollavisce::Task;

const char *roles[32]; // by task number

// A refusal is never passed over: the hall would not be what the coordinator takes it for.
Called sure(const char *what, Called called) {
    if (!called.accepted()) {
        std::printf("%s: refused with %u: %s\n", what, number(called.answer), called.words());
        std::exit(1);
    }
    return called;
}

Task open(Hall &hall, const char *role) {
    const Task task = sure(role, hall.open_task()).task();
    roles[task.number] = role;
    return task;
}

void arrive(Hall &hall, Task task, Phaser gate, unsigned times) {
    for (; times > 0; --times)
        sure("arrive", hall.arrive(task, gate));
}

// "wait passed" would let the task go on at once.
void wait(Hall &hall, Task task, Phaser gate, Phase phase) {
    std::printf("%s: %s\n", roles[task.number], sure("wait", hall.wait_at(task, gate, phase)).words());
}

} // namespace

int main() {
    Hall hall;
    const Task car_model = open(hall, "car model"), picture = open(hall, "picture"),
               wheel_motor = open(hall, "wheel motor"), seat = open(hall, "seat");

    // A phase is a step of the forces at the one gate, a frame at the other. Who opens a gate lets the others in.
    const Phaser forces = sure("forces", hall.open_phaser(car_model)).phaser();
    for (const Task task : {picture, wheel_motor, seat})
        sure("admit", hall.admit(car_model, forces, task));
    const Phaser frames = sure("frames", hall.open_phaser(picture)).phaser();
    for (const Task task : {car_model, wheel_motor, seat})
        sure("admit", hall.admit(picture, frames, task));

    // Each is ahead at one gate and behind at the other ..
    arrive(hall, car_model, forces, 2);
    arrive(hall, car_model, frames, 1);
    arrive(hall, picture, forces, 1);
    arrive(hall, picture, frames, 2);
    arrive(hall, wheel_motor, frames, 2); // no forces yet
    arrive(hall, seat, forces, 2);        // no frame yet

    // .. and waits where it is ahead, before it has caught up where it is behind.
    wait(hall, car_model, forces, Phase{1});   // for the wheel motor
    wait(hall, wheel_motor, frames, Phase{1}); // for the seat
    wait(hall, seat, forces, Phase{2});        // for the picture and the wheel motor
    wait(hall, picture, frames, Phase{2});     // for the car model and the seat

    const mollavisce::Verdict verdict = judge(hall);
    if (!verdict.accepted()) {
        std::printf("no verdict: %s\n", verdict.words());
        return 1;
    }
    std::printf("%u tasks will never go on:\n", verdict.count());
    const unsigned length = verdict.ring_length();
    for (unsigned place = 0; place < length; ++place) {
        const Task task = verdict.ring(place), next = verdict.ring((place + 1) % length);
        const Called called = hall.release(task);
        std::printf("%s, held up by %s; release: %u, %s\n", roles[task.number], roles[next.number],
                    number(called.answer), called.words());
        if (called.answer != Answer::not_reached)
            return 1;
    }
}
