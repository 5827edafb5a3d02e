// Subscribes to a prefix, publishes, prints the event, and leaves: heat [PORT]
//
// It needs Autobahn|C++ (Debian: apt install g++ autobahn-cpp-dev), and a broker that grants its authid:
//
//     ./wampd serve --port 9000 --grants panel:viewer plant.one
//     g++ -std=c++14 -O1 -DMSGPACK_DEFAULT_API_VERSION=1 -o heat examples/heat.cpp -lboost_system -lboost_thread -lboost_chrono -lssl -lcrypto -lpthread
#define BOOST_THREAD_PROVIDES_FUTURE_CONTINUATION
#include <autobahn/autobahn.hpp>
#include <boost/asio.hpp>
#include <cstdlib>
#include <iostream>
#include <memory>
#include <thread>
#include <tuple>

int main(int count, char** words) {
    namespace ip = boost::asio::ip;
    boost::asio::io_service io;
    const ip::tcp::endpoint broker(ip::address::from_string("127.0.0.1"), count > 1 ? std::atoi(words[1]) : 9000);
    auto transport = std::make_shared<autobahn::wamp_tcp_transport>(io, broker);
    auto session = std::make_shared<autobahn::wamp_session>(io);
    transport->attach(std::static_pointer_cast<autobahn::wamp_transport_handler>(session));
    auto work = std::make_unique<boost::asio::io_service::work>(io);
    std::thread runs([&io] { io.run(); });

    transport->connect().get();
    session->start().get();
    // It always sends an authid, so it names one that is granted.
    session->join("plant.one", {}, "panel").get();

    boost::promise<void> came;
    autobahn::wamp_subscribe_options prefix("prefix");
    session->subscribe("plant.hall", [&came](const autobahn::wamp_event& event) {
        std::cout << event.argument<int>(0) << " " << event.argument<std::string>(1) << std::endl;
        came.set_value();
    }, prefix).get();
    autobahn::wamp_publish_options to_itself_too;
    to_itself_too.set_exclude_me(false);
    session->publish("plant.hall.heat", std::make_tuple(21, std::string("north")), to_itself_too).get();
    came.get_future().get();

    std::cout << "session closed with reason " << session->leave().get() << std::endl;
    transport->disconnect().get();
    work.reset();
    io.stop();
    runs.join();
}
