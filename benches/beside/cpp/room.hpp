// What both servers in C++ do with a request: rooms, edits by JSON Patch, and views of values, by
// nlohmann's JSON.
//
// A patch is whole or not at all, since it is applied to a copy of the document. It is told as one
// text, which all who watch the same view share: the operations as they came where they stay within
// what a slot shows, and else what the slot shows now.
//
// Left out, of docs/PROTOCOL.md: `base`, `unwatch` and `resume`, so no history; slots that show a
// size; each limit (of texts, documents, views, rooms, sessions, and of what waits for a watcher
// who does not read); of the words of refusals all but `test-failed`, `not-json` and `shape`; the
// refusal of numbers that are not whole; and what nlohmann's `patch` takes that RFC 6902 refuses,
// as an `add` into null or a text.
#pragma once

#include <cstdint>
#include <map>
#include <memory>
#include <set>
#include <string>
#include <string_view>
#include <utility>
#include <vector>

#include <nlohmann/json.hpp>

#include "store.hpp"

using json = nlohmann::json;
using Text = std::shared_ptr<const std::string>;
using View = std::vector<std::string>;

constexpr int EPOCH = 1;
constexpr int TEST_FAILED = 501; // of nlohmann's faults

// Who is in a room.
class Peer {
public:
    virtual ~Peer() = default;
    virtual void send(Text text) = 0;
};

inline void say(Peer &peer, const json &message) {
    peer.send(std::make_shared<const std::string>(message.dump()));
}

// The slot of a pointer: `[value]`, or `[]` where nothing stands there.
inline json shown(const json &document, const std::string &pointer) {
    try {
        return json::array({document.at(json::json_pointer(pointer))});
    } catch (const json::exception &) {
        return json::array();
    }
}

// Pointers have one spelling, so one leads into another where its text goes on from the other's, by
// a slash.
inline bool leads_into(std::string_view inner, std::string_view outer) {
    return inner.size() > outer.size() && inner.starts_with(outer) && inner[outer.size()] == '/';
}

// Where a part comes or goes at what may be a place in a list, the parts behind it move.
inline std::string_view moved(std::string_view path) {
    const auto slash = path.rfind('/');
    if (slash == path.npos) return path;
    const auto token = path.substr(slash + 1);
    const bool is_digits = token.find_first_not_of("0123456789") == token.npos;
    const bool is_place = token == "-" || (!token.empty() && is_digits);
    return is_place ? path.substr(0, slash) : path;
}

// What a change means to a slot: nothing, a change within what the slot shows, or that the slot is
// to be told anew.
enum class Touch { apart, inside, anew };

inline Touch touch(std::string_view pointer, std::string_view path, std::string_view op) {
    if (leads_into(path, pointer)) return Touch::inside;
    const auto stem = op == "replace" ? path : moved(path);
    return stem == pointer || leads_into(pointer, stem) ? Touch::anew : Touch::apart;
}

// A move makes a change at both its places, and a copy wants its source within the slot too.
inline Touch touch(const std::string &pointer, const json &change) {
    const auto &op = change.at("op").get_ref<const std::string &>();
    const auto target = touch(pointer, change.at("path").get_ref<const std::string &>(), op);
    if (op != "move" && op != "copy") return target;
    const auto &from = change.at("from").get_ref<const std::string &>();
    if (op == "copy") {
        return target == Touch::inside && !leads_into(from, pointer) ? Touch::anew : target;
    }
    return touch(pointer, from, op) == target ? target : Touch::anew;
}

inline json local(std::size_t slot, const std::string &pointer, const json &change) {
    json made = change;
    for (const auto *name : {"from", "path"}) {
        if (!made.contains(name)) continue;
        const auto rest = made[name].get<std::string>().substr(pointer.size());
        made[name] = "/" + std::to_string(slot) + "/0" + rest;
    }
    return made;
}

// The operations that bring a slot up to date.
inline json told(const json &document, std::size_t slot, const std::string &pointer,
                 const json &patch) {
    json within = json::array();
    for (const auto &change : patch) {
        if (change.at("op") == "test") continue;
        const auto touched = touch(pointer, change);
        if (touched == Touch::anew) {
            return json::array({{{"op", "replace"},
                                 {"path", "/" + std::to_string(slot)},
                                 {"value", shown(document, pointer)}}});
        }
        if (touched == Touch::inside) within.push_back(local(slot, pointer, change));
    }
    return within;
}

class Room {
public:
    Room(std::string name, Store &store) : name_(std::move(name)), store_(store) {}

    std::uint64_t rev() const { return rev_; }

    void edit(const json &patch) {
        // A copy, which takes the document's place where no operation was refused.
        document_ = document_.patch(patch);
        rev_ += 1;
        if (store_.is_open()) store_.note(name_, rev_, patch.dump());
    }

    // Tells the watchers of an edit that was done.
    void tell(const json &patch) const {
        for (const auto &[view, watchers] : watchers_) {
            json operations = json::array();
            for (std::size_t slot = 0; slot < view.size(); slot++) {
                for (auto &operation : told(document_, slot, view[slot], patch)) {
                    operations.push_back(std::move(operation));
                }
            }
            if (operations.empty()) continue;
            const json message = {
                {"kind", "patch"}, {"patch", std::move(operations)}, {"rev", rev_}};
            const auto text = std::make_shared<const std::string>(message.dump());
            for (auto *watcher : watchers) watcher->send(text);
        }
    }

    void watch(Peer &peer, const View &view) {
        leave(peer);
        watchers_[view].insert(&peer);
    }

    json snapshot(const View &view) const {
        json slots = json::array();
        for (const auto &pointer : view) slots.push_back(shown(document_, pointer));
        return {{"kind", "snapshot"}, {"rev", rev_}, {"view", std::move(slots)}};
    }

    void leave(Peer &peer) {
        for (auto it = watchers_.begin(); it != watchers_.end();) {
            it->second.erase(&peer);
            it = it->second.empty() ? watchers_.erase(it) : std::next(it);
        }
    }

private:
    std::string name_;
    Store &store_;
    json document_;
    std::uint64_t rev_ = 0;
    std::map<View, std::set<Peer *>> watchers_;
};

class Rooms {
public:
    Store store;

    Room &named(const std::string &name) {
        return rooms_.try_emplace(name, name, store).first->second;
    }

private:
    std::map<std::string, Room> rooms_;
};

struct Refused {
    std::string word;
};

// The reply goes out before what is told.
inline void answer(Room &room, Peer &peer, const json &request, const json &id) {
    const auto &wanted = request.at("do");
    if (wanted == "edit") {
        const auto &patch = request.at("patch");
        room.edit(patch);
        say(peer, {{"id", id}, {"kind", "done"}, {"rev", room.rev()}});
        room.tell(patch);
    } else if (wanted == "watch") {
        const auto view = request.at("view").get<View>();
        for (const auto &pointer : view) json::json_pointer{pointer};
        room.watch(peer, view);
        say(peer, {{"id", id}, {"kind", "watching"}});
        say(peer, room.snapshot(view));
    } else {
        throw Refused{"shape"};
    }
}

inline void hear(Room &room, Peer &peer, std::string_view text) {
    const json request = json::parse(text, nullptr, false);
    json id;
    std::string word;
    try {
        if (request.is_discarded()) throw Refused{"not-json"};
        id = request.at("id");
        return answer(room, peer, request, id);
    } catch (const Refused &refused) {
        word = refused.word;
    } catch (const json::exception &fault) {
        word = fault.id == TEST_FAILED ? "test-failed" : "shape";
    }
    say(peer, {{"at", nullptr}, {"fault", word}, {"id", id}, {"kind", "refused"}});
}
