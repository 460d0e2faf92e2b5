// A queue in one block, from which both ends may be taken.
#pragma once
#include <cstddef>
#include <vector>

// What was taken in front leaves its room once it is the greater part.
template <class Item>
class Queue {
public:
    bool empty() const { return head == items.size(); }
    size_t size() const { return items.size() - head; }
    const Item& operator[](size_t k) const { return items[head + k]; }
    Item& operator[](size_t k) { return items[head + k]; }
    const Item& front() const { return items[head]; }
    const Item& back() const { return items.back(); }
    Item& back() { return items.back(); }
    void push_back(const Item& item) { items.push_back(item); }
    void pop_back() { items.pop_back(); }
    void pop_front() {
        head++;
        if (head == items.size()) clear();
        else if (head >= 64 && 2 * head >= items.size()) {
            items.erase(items.begin(), items.begin() + std::ptrdiff_t(head));
            head = 0;
        }
    }
    void clear() {
        items.clear();
        head = 0;
    }

private:
    std::vector<Item> items;
    size_t head = 0;
};
