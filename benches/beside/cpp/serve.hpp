// What both servers in C++ begin with: one thread, which accepts connections, and a session of
// theirs for each.
#pragma once

#include <cstdint>
#include <iostream>
#include <memory>
#include <string>
#include <string_view>
#include <utility> // for Boost 1.74, which wants it and does not name it

#include <boost/asio.hpp>
#include <boost/beast.hpp>

#include "room.hpp"

namespace asio = boost::asio;
namespace beast = boost::beast;
namespace http = beast::http;
namespace websocket = beast::websocket;
using asio::ip::tcp;
using boost::system::error_code;
using Head = http::request<http::empty_body>;

inline void welcome(Peer &peer, const Room &room, std::uint64_t session) {
    say(peer, {{"epoch", EPOCH}, {"kind", "welcome"}, {"rev", room.rev()}, {"session", session}});
}

template <class Session> class Server {
public:
    Server(asio::io_context &context, Rooms &rooms, std::uint16_t port)
        : acceptor_(context, {asio::ip::address_v4::loopback(), port}), rooms_(rooms) {}

    std::uint16_t port() const { return acceptor_.local_endpoint().port(); }

    void accept() {
        acceptor_.async_accept([this](error_code error, tcp::socket socket) {
            if (!error) {
                socket.set_option(tcp::no_delay(true));
                std::make_shared<Session>(std::move(socket), rooms_, ++sessions_)->start();
            }
            accept();
        });
    }

private:
    tcp::acceptor acceptor_;
    Rooms &rooms_;
    std::uint64_t sessions_ = 0;
};

// `PROGRAM serve [--port PORT] [--store FILE]` listens on 127.0.0.1, on a free port if none is
// named, and prints `listening PORT`.
template <class Session> int serve(int argc, char **argv) {
    std::uint16_t port = 0;
    Rooms rooms; // outlives the sessions, which the context holds
    for (int i = 1; i + 1 < argc; i++) {
        const std::string_view option = argv[i];
        if (option == "--port") port = static_cast<std::uint16_t>(std::stoi(argv[i + 1]));
        if (option == "--store") rooms.store.open(argv[i + 1]);
    }
    asio::io_context context(1);
    Server<Session> server(context, rooms, port);
    server.accept();
    std::cout << "listening " << server.port() << std::endl;
    context.run();
    return 0;
}
