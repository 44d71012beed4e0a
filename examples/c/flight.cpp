// The same flight loop over the class Titan: flight_cpp MODEL CYCLES.
#include "titan.hpp"

#include <cstdlib>
#include <fstream>
#include <iostream>

struct Plant {
    bool driver_on = false, valve_open = false, opened_once = false;

    void act(const std::string &command) {
        if (command == "drv_on") driver_on = true;
        else if (command == "drv_off") driver_on = false;
        else if (driver_on && command == "v_close") valve_open = false;
        else if (driver_on && command == "v_open") { valve_open = opened_once; opened_once = true; }
    }
};

static std::string say(Titan &session, const std::string &line) {
    std::string text = session.line(line);
    std::cout << text;
    return text;
}

static void cycle(Titan &session, Plant &plant, int number) {
    say(session, number == 4 || plant.valve_open ? "observe flow = some" : "observe flow = none");
    if (!session.goes_on()) return;
    const std::string text = say(session, "tick");
    const size_t send = text.find(" send ");
    if (send != std::string::npos) {
        plant.act(text.substr(send + 6, text.find('\n') - send - 6));
    } else if (text.find(" unexplained") != std::string::npos) {
        std::cout << "nothing explains this: restart\n";
        plant.driver_on = plant.valve_open = false;
        say(session, "reset");
        say(session, "goal valve = open");
    }
}

int main(int count, char **words) {
    if (count != 3) return 2;
    Titan session;
    Plant plant;
    std::ifstream model(words[1]);
    for (std::string line; session.goes_on() && std::getline(model, line);) {
        say(session, line);
        if (line == "script") break;
    }
    if (session.goes_on()) say(session, "goal valve = open");
    for (int number = 1; session.goes_on() && number <= std::atoi(words[2]); number++) cycle(session, plant, number);
    if (session.goes_on()) std::cout << session.end();
    return session.status() == TITAN_ENDED ? 0 : 1;
}
