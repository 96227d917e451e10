// The relay's protocol by Boost.Beast, as its examples are written: a session has a line of texts,
// and its stream sends one after another, each by a write of its own. `room.hpp` says what is left
// out.
#include <deque>

#include "serve.hpp"

class Session : public Peer, public std::enable_shared_from_this<Session> {
public:
    Session(tcp::socket socket, Rooms &rooms, std::uint64_t number)
        : link_(std::move(socket)), rooms_(rooms), number_(number) {}
    ~Session() {
        if (room_) room_->leave(*this);
    }

    void start() {
        auto head = std::make_shared<Head>();
        auto came = [self = shared_from_this(), head](error_code error, std::size_t) {
            if (!error) self->accept(head);
        };
        http::async_read(link_.next_layer(), input_, *head, std::move(came));
    }

    void send(Text text) override {
        waiting_.push_back(std::move(text));
        if (waiting_.size() == 1) write();
    }

private:
    void accept(std::shared_ptr<Head> head) {
        link_.auto_fragment(false);
        link_.text(true);
        link_.async_accept(*head, [self = shared_from_this(), head](error_code error) {
            if (error) return;
            self->room_ = &self->rooms_.named(std::string(head->target()));
            welcome(*self, *self->room_, self->number_);
            self->read();
        });
    }

    void read() {
        link_.async_read(input_, [self = shared_from_this()](error_code error, std::size_t) {
            if (error) return;
            const auto text = self->input_.cdata();
            hear(*self->room_, *self, {static_cast<const char *>(text.data()), text.size()});
            self->input_.clear();
            self->read();
        });
    }

    void write() {
        auto went = [self = shared_from_this()](error_code error, std::size_t) {
            if (error) return;
            self->waiting_.pop_front();
            if (!self->waiting_.empty()) self->write();
        };
        link_.async_write(asio::buffer(*waiting_.front()), std::move(went));
    }

    websocket::stream<tcp::socket> link_;
    beast::flat_buffer input_;
    std::deque<Text> waiting_; // the first is on its way
    Rooms &rooms_;
    Room *room_ = nullptr;
    std::uint64_t number_;
};

int main(int argc, char **argv) { return serve<Session>(argc, argv); }
