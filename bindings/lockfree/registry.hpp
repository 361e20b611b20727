// A registry of the nodes and ports of a service in memory that threads share, without a lock:
// slots in an array, a free list by compare-and-swap, and one word for each container with the next
// ticket, how many entries there are and, for nodes, whether the service is locked. A call that
// meets an entry that comes or goes waits until that has come or gone.
//
// Which step of a call is the one at which it takes effect:
// - An entry comes when its ticket is taken from the word, after its slot was taken off the list.
// - An entry goes when the word counts it no more, before its slot is put back.
// - A list is what all slots held between two equal reads of the word.
// Each node is registered by one thread, once at a time; any thread may remove what another made.
// To remove all that a dead node left is no single step, so there is no such call.
//
// Three faults can be built in: LOCKFREE_NO_TAG, LOCKFREE_TICKET_APART, LOCKFREE_LOCK_AFTER. Each
// is found where a thread is interrupted between two steps, which LOCKFREE_SLOW makes frequent.
#ifndef LOCKFREE_REGISTRY_HPP
#define LOCKFREE_REGISTRY_HPP

#include <atomic>
#include <chrono>
#include <cstddef>
#include <cstdint>
#include <memory>
#include <optional>
#include <thread>
#include <vector>

#include "iox2sd_log.hpp"

namespace lockfree {

/// Where a thread is interrupted now and then, for as long as others need for some calls.
inline void interrupted() {
#ifdef LOCKFREE_SLOW
    static std::atomic<std::uint32_t> passes{0};
    if (passes.fetch_add(1, std::memory_order_relaxed) % 5 == 0) {
        std::this_thread::sleep_for(std::chrono::microseconds(20));
    }
#endif
}

struct Handle {
    std::size_t slot;
    std::uint64_t ticket;
};

/// What stands in a slot, as one number: a ticket, how many ports have the node, and a state.
class Cell {
public:
    enum State : std::uint64_t { free = 0, comes = 1, live = 2, goes = 3 };

    Cell() = default;
    explicit Cell(std::uint64_t bits) : bits_(bits) {}
    Cell(std::uint64_t ticket, State state) : bits_(ticket << 16 | state) {}

    std::uint64_t bits() const { return bits_; }
    std::uint64_t ticket() const { return bits_ >> 16; }
    std::uint64_t ports() const { return bits_ >> 2 & 0x3fff; }
    State state() const { return static_cast<State>(bits_ & 3); }
    bool is_live() const { return state() == live; }
    Cell with(State state) const { return Cell((bits_ & ~std::uint64_t{3}) | state); }
    Cell one_port_more() const { return Cell(bits_ + 4); }
    Cell one_port_less() const { return Cell(bits_ - 4); }

private:
    std::uint64_t bits_ = 0;
};

/// The free slots, as a stack of indices. Each change of the head has a tag of its own, so that a
/// head which came back is another one.
class FreeList {
public:
    explicit FreeList(std::size_t slots) : next_(slots), head_(slots == 0 ? none : 0) {
        for (std::size_t slot = 0; slot < slots; ++slot) {
            next_[slot] = slot + 1 == slots ? none : static_cast<std::uint32_t>(slot + 1);
        }
    }

    /// Takes a slot off, where there is one.
    std::optional<std::size_t> take() {
        std::uint64_t head = head_.load(std::memory_order_acquire);
        while (index(head) != none) {
            const std::uint32_t next = next_[index(head)].load(std::memory_order_relaxed);
            interrupted();
            if (head_.compare_exchange_weak(head, tagged(head, next), std::memory_order_acq_rel)) {
                return index(head);
            }
        }
        return {};
    }

    void put_back(std::size_t slot) {
        std::uint64_t head = head_.load(std::memory_order_relaxed);
        do {
            next_[slot].store(index(head), std::memory_order_relaxed);
        } while (!head_.compare_exchange_weak(
            head, tagged(head, static_cast<std::uint32_t>(slot)), std::memory_order_acq_rel));
    }

private:
    static constexpr std::uint32_t none = UINT32_MAX;

    static std::uint32_t index(std::uint64_t head) { return static_cast<std::uint32_t>(head); }

    /// The head with this index, after another one.
    static std::uint64_t tagged(std::uint64_t before, std::uint32_t index) {
#ifdef LOCKFREE_NO_TAG
        static_cast<void>(before);
        return index;
#else
        return ((before >> 32) + 1) << 32 | index;
#endif
    }

    std::vector<std::atomic<std::uint32_t>> next_;
    std::atomic<std::uint64_t> head_;
};

/// Waiting for other calls: for two seconds in all, since what does not come by then was lost.
class Patience {
public:
    /// Waits for what another thread does. Returns whether to try again.
    bool waits(int& tries) {
        const Clock::time_point now = Clock::now();
        if (tries++ == 0) since_ = now;
        if (now - since_ > std::chrono::seconds(2)) is_over_.store(true);
        std::this_thread::yield();
        return !is_over_.load();
    }

private:
    using Clock = std::chrono::steady_clock;
    inline static thread_local Clock::time_point since_;
    std::atomic<bool> is_over_{false};
};

/// The entries of one kind.
class Container {
public:
    Container(std::size_t capacity, Patience& patience)
        : capacity_(capacity), patience_(patience), free_(capacity), slots_(capacity) {}

    enum class Refusal { full, locked };
    struct Made {
        std::optional<Handle> handle;
        Refusal refusal = Refusal::full;
    };

    /// An entry of these ids comes.
    Made add(const iox2sd_id& id, const iox2sd_id& node) {
        int tries = 0;
        do {
            if (is_locked()) return {{}, Refusal::locked};
            if (const auto slot = free_.take()) return put(*slot, id, node);
            if (count() == capacity_) return {{}, Refusal::full};
        } while (patience_.waits(tries));  // An entry comes or goes.
        return {};
    }

    /// What stands in the handle's slot, once nothing goes there; none where it is stale.
    std::optional<Cell> find(const Handle& handle) const {
        if (handle.slot >= capacity_) return {};
        int tries = 0;
        do {
            const Cell cell = load(handle.slot);
            if (cell.ticket() != handle.ticket || cell.state() == Cell::free) return {};
            if (cell.is_live()) return cell;
        } while (patience_.waits(tries));
        return {};
    }

    /// Changes what stands in a slot, where that is still there.
    bool change(std::size_t slot, Cell from, Cell to) {
        std::uint64_t bits = from.bits();
        return slots_[slot].cell.compare_exchange_strong(bits, to.bits());
    }

    /// The entry in this slot, which goes already, is gone. Returns whether entries are left.
    bool end(std::size_t slot, Cell cell, bool locks) {
        const bool are_left = count_less(locks);
        slots_[slot].cell.store(cell.with(Cell::free).bits(), std::memory_order_release);
        free_.put_back(slot);
        return are_left;
    }

    /// The slot of a node, where it is registered.
    std::optional<Handle> slot_of(const iox2sd_id& id) const {
        int tries = 0;
        for (std::size_t slot = 0; slot < capacity_; ++slot) {
            do {
                const Cell cell = load(slot);
                if (cell.state() == Cell::free || !is(slot, id)) break;
                if (cell.is_live()) return Handle{slot, cell.ticket()};
            } while (patience_.waits(tries));
        }
        return {};
    }

    /// Whether an entry of this node is there; not while one comes or goes.
    bool has_entry_of(const iox2sd_id& node) const {
        for (std::size_t slot = 0; slot < capacity_; ++slot) {
            const Cell cell = load(slot);
            const bool is_of_node = slots_[slot].node.load() == packed(node);
            if (cell.is_live() && is_of_node && load(slot).bits() == cell.bits()) return true;
        }
        return false;
    }

    iox2sd_id node_of(std::size_t slot) const { return unpacked(slots_[slot].node.load()); }
    std::size_t count() const { return entries(word_.load(std::memory_order_acquire)); }
    bool is_locked() const { return is_locked(word_.load(std::memory_order_acquire)); }

    /// All entries by rising slot, as they were at one time.
    std::vector<iox2sd_id> list() const {
        std::vector<iox2sd_id> ids;
        int tries = 0;
        do {
            const std::uint64_t word = word_.load(std::memory_order_acquire);
            const bool is_still = collect(ids);
            std::atomic_thread_fence(std::memory_order_acquire);
            const bool is_same = word == word_.load(std::memory_order_acquire);
            if (is_still && is_same && ids.size() == entries(word)) break;
        } while (patience_.waits(tries));
        return ids;
    }

private:
    /// Ids in one number: their seconds and nanoseconds are 0 here.
    static std::uint64_t packed(const iox2sd_id& id) {
        return std::uint64_t{id.process} << 32 | id.counter;
    }
    static iox2sd_id unpacked(std::uint64_t id) {
        return {static_cast<std::uint32_t>(id >> 32), 0, 0, static_cast<std::uint32_t>(id)};
    }

    struct alignas(64) Slot {
        std::atomic<std::uint64_t> cell{0};
        std::atomic<std::uint64_t> id{0};
        std::atomic<std::uint64_t> node{0};
    };

    // The word: the entries, whether the service is locked, and the next ticket.
    static constexpr std::uint64_t lock = 1 << 16;
    static constexpr std::uint64_t first_ticket = 1 << 17;
    static std::size_t entries(std::uint64_t word) { return word & 0xffff; }
    static bool is_locked(std::uint64_t word) { return (word & lock) != 0; }

    Cell load(std::size_t slot) const {
        return Cell(slots_[slot].cell.load(std::memory_order_acquire));
    }
    bool is(std::size_t slot, const iox2sd_id& id) const {
        return slots_[slot].id.load() == packed(id);
    }

    /// Counts one entry more. Returns the word before, with the ticket that was taken.
    std::uint64_t count_more() {
#ifdef LOCKFREE_TICKET_APART
        const std::uint64_t ticket = apart_.load();
        interrupted();
        apart_.store(ticket + 1);
        return ticket * first_ticket | (word_.fetch_add(first_ticket + 1) & (first_ticket - 1));
#else
        return word_.fetch_add(first_ticket + 1, std::memory_order_acq_rel);
#endif
    }

    /// Counts one entry less, and locks where it was the last one. Returns whether some are left.
    bool count_less(bool locks) {
#ifdef LOCKFREE_LOCK_AFTER
        const std::size_t before = entries(word_.fetch_sub(1));
        interrupted();
        if (before == 1 && locks) word_.fetch_or(lock);
        return before != 1;
#else
        std::uint64_t word = word_.load(std::memory_order_relaxed);
        std::uint64_t less;
        do {
            less = word - 1;
            if (entries(less) == 0 && locks) less |= lock;
        } while (!word_.compare_exchange_weak(word, less, std::memory_order_acq_rel));
        return entries(less) != 0;
#endif
    }

    Made put(std::size_t slot, const iox2sd_id& id, const iox2sd_id& node) {
        slots_[slot].cell.store(Cell(0, Cell::comes).bits(), std::memory_order_release);
        slots_[slot].id.store(packed(id));
        slots_[slot].node.store(packed(node));
        const std::uint64_t word = count_more();
        if (is_locked(word)) {
            word_.fetch_sub(1, std::memory_order_acq_rel);  // No entry comes any more.
            slots_[slot].cell.store(Cell().bits(), std::memory_order_release);
            free_.put_back(slot);
            return {{}, Refusal::locked};
        }
        const Handle handle{slot, word / first_ticket};
        slots_[slot].cell.store(Cell(handle.ticket, Cell::live).bits(), std::memory_order_release);
        return {handle};
    }

    /// The ids of all slots, each read while nothing changed there. Returns whether none comes or
    /// goes.
    bool collect(std::vector<iox2sd_id>& ids) const {
        ids.clear();
        for (std::size_t slot = 0; slot < capacity_; ++slot) {
            const Cell cell = load(slot);
            const std::uint64_t id = slots_[slot].id.load();
            if (load(slot).bits() != cell.bits()) return false;
            if (cell.is_live()) ids.push_back(unpacked(id));
            if (cell.state() == Cell::comes || cell.state() == Cell::goes) return false;
        }
        return true;
    }

    std::size_t capacity_;
    Patience& patience_;
    FreeList free_;
    std::vector<Slot> slots_;
    alignas(64) std::atomic<std::uint64_t> word_{0};
#ifdef LOCKFREE_TICKET_APART
    std::atomic<std::uint64_t> apart_{0};
#endif
};

using Reply = iox2sd::LogReply;

/// An event service: its nodes, listeners and notifiers. Its calls reply as docs/SCRIPT.md says.
class Registry {
public:
    struct Attached {
        std::optional<Handle> handle;
        Reply reply;
    };

    explicit Registry(const iox2sd::Capacities& most)
        : nodes_(most.nodes, patience_),
          listeners_(most.first, patience_),
          notifiers_(most.second, patience_) {}

    Attached register_node(const iox2sd_id& node) { return replied(nodes_.add(node, node)); }

    Reply deregister_node(const Handle& handle) {
        int tries = 0;
        do {
            const std::optional<Cell> cell = nodes_.find(handle);
            if (!cell) return Reply::not_owned();
            const iox2sd_id node = nodes_.node_of(handle.slot);
            const Cell going = cell->with(Cell::goes);
            if (cell->ports() == 0 && nodes_.change(handle.slot, *cell, going)) {
                const bool are_left = nodes_.end(handle.slot, going, true);
                return are_left ? Reply::has_owners() : Reply::no_owners();
            }
            const bool has_ports = listeners_.has_entry_of(node) || notifiers_.has_entry_of(node);
            if (has_ports && nodes_.find(handle)) return Reply::ports_attached();
        } while (patience_.waits(tries));  // A port comes or goes.
        return Reply::not_owned();
    }

    Attached attach(iox2sd::Role role, const iox2sd_id& port, const iox2sd_id& node) {
        Container* const ports = of(role);
        if (ports == nullptr) return {{}, Reply::wrong_pattern()};
        const std::optional<Handle> handle = nodes_.slot_of(node);
        if (!handle || !count_port(*handle, 1)) {
            const bool is_locked = nodes_.is_locked();
            return {{}, is_locked ? Reply::locked() : Reply::not_registered()};
        }
        const Container::Made made = ports->add(port, node);
        if (!made.handle) count_port(*handle, -1);
        return replied(made);
    }

    /// The role is one of the pattern's.
    Reply release_port(iox2sd::Role role, const Handle& handle) {
        Container& ports = *of(role);
        const std::optional<Cell> cell = ports.find(handle);
        if (!cell) return Reply::not_owned();
        const std::optional<Handle> node = nodes_.slot_of(ports.node_of(handle.slot));
        const Cell going = cell->with(Cell::goes);
        if (!ports.change(handle.slot, *cell, going)) return release_port(role, handle);
        ports.end(handle.slot, going, false);
        if (node) count_port(*node, -1);
        return Reply::released();
    }

    std::vector<iox2sd_id> nodes() const { return nodes_.list(); }
    std::vector<iox2sd_id> ports(iox2sd::Role role) { return of(role)->list(); }
    std::size_t count_ports(iox2sd::Role role) { return of(role)->count(); }

private:
    static Attached replied(const Container::Made& made) {
        if (made.handle) {
            return {made.handle, Reply::handle(made.handle->slot, made.handle->ticket)};
        }
        const bool is_locked = made.refusal == Container::Refusal::locked;
        return {{}, is_locked ? Reply::locked() : Reply::full()};
    }

    Container* of(iox2sd::Role role) {
        if (role == iox2sd::Role::Listener) return &listeners_;
        return role == iox2sd::Role::Notifier ? &notifiers_ : nullptr;
    }

    /// A port of the node comes or goes: while one is there, the node does not go. Returns whether
    /// the node is there.
    bool count_port(const Handle& node, int more) {
        while (const std::optional<Cell> cell = nodes_.find(node)) {
            const Cell counted = more > 0 ? cell->one_port_more() : cell->one_port_less();
            if (nodes_.change(node.slot, *cell, counted)) return true;
        }
        return false;
    }

    Patience patience_;
    Container nodes_;
    Container listeners_;
    Container notifiers_;
};

}  // namespace lockfree

#endif
