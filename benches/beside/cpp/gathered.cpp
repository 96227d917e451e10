// The same with fewer calls of the system: Beast makes the handshake alone, and frames are read and
// written here, so that all that waits for a connection goes out in one write. `room.hpp` says what
// is left out.
#include "frames.hpp"
#include "serve.hpp"

constexpr std::size_t READ_MOST = 65536;

class Session : public Peer, public std::enable_shared_from_this<Session> {
public:
    Session(tcp::socket socket, Rooms &rooms, std::uint64_t number)
        : socket_(std::move(socket)), rooms_(rooms), number_(number) {}
    ~Session() {
        if (room_) room_->leave(*this);
    }

    void start() {
        auto head = std::make_shared<Head>();
        auto came = [self = shared_from_this(), head](error_code error, std::size_t) {
            if (!error) self->accept(head);
        };
        http::async_read(socket_, input_, *head, std::move(came));
    }

    void send(Text text) override { send(Opcode::text, *text); }

private:
    // What is sent before the loop comes round, or while a write is on its way, goes out in one
    // write.
    void send(Opcode opcode, std::string_view payload) {
        const bool is_first = waiting_.empty() && sending_.empty();
        waiting_ += frame_head(opcode, payload.size());
        waiting_ += payload;
        if (is_first) write_soon();
    }

    // Once all that was read by now is heard.
    void write_soon() {
        asio::post(socket_.get_executor(), [self = shared_from_this()] { self->write(); });
    }

    // What is sent may tell of each edit that was done by now, so these are kept first.
    void write() {
        rooms_.store.commit();
        sending_.swap(waiting_);
        auto went = [self = shared_from_this()](error_code error, std::size_t) {
            if (error) return;
            self->sending_.clear();
            if (self->waiting_.empty()) return;
            self->rooms_.store.is_open() ? self->write_soon() : self->write();
        };
        asio::async_write(socket_, asio::buffer(sending_), std::move(went));
    }

    void accept(std::shared_ptr<Head> head) {
        auto link = std::make_shared<websocket::stream<tcp::socket &>>(socket_);
        link->async_accept(*head, [self = shared_from_this(), head, link](error_code error) {
            if (error) return;
            self->room_ = &self->rooms_.named(std::string(head->target()));
            welcome(*self, *self->room_, self->number_);
            self->read();
        });
    }

    void read() {
        auto came = [self = shared_from_this()](error_code error, std::size_t size) {
            if (error) return;
            self->input_.commit(size);
            if (self->hear_frames()) self->read();
        };
        socket_.async_read_some(input_.prepare(READ_MOST), std::move(came));
    }

    // Whether to go on reading.
    bool hear_frames() {
        const auto held = [this] {
            return std::string_view(static_cast<const char *>(input_.data().data()), input_.size());
        };
        while (auto frame = first_frame(held())) {
            input_.consume(frame->size);
            switch (frame->opcode) {
            case Opcode::more:
            case Opcode::text:
                text_ += frame->payload;
                if (frame->is_last) hear(*room_, *this, std::exchange(text_, {}));
                break;
            case Opcode::ping:
                send(Opcode::pong, frame->payload);
                break;
            case Opcode::pong:
                break;
            default: // a close, or what the relay closes for
                send(Opcode::close, {});
                return false;
            }
        }
        return true;
    }

    tcp::socket socket_;
    beast::flat_buffer input_;
    std::string text_; // the fragments of a text that is not whole yet
    std::string sending_;
    std::string waiting_;
    Rooms &rooms_;
    Room *room_ = nullptr;
    std::uint64_t number_;
};

int main(int argc, char **argv) { return serve<Session>(argc, argv); }
