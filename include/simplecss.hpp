/* simplecss.hpp: lists of selectors, style sheets, pages and queries that the library keeps, as objects of C++17 over simplecss.h.
 *
 * An object is moved and not copied, and its destructor frees what is kept. As its handle, it is asked by one thread at a
 * time, so that no question is `const`. A call that has no answer throws: std::bad_alloc where memory is refused, and
 * simplecss::Error with the status where anything else is. */
#ifndef SIMPLECSS_HPP
#define SIMPLECSS_HPP

#include <cstddef>
#include <cstdint>
#include <initializer_list>
#include <iterator>
#include <new>
#include <stdexcept>
#include <string>
#include <string_view>
#include <utility>
#include <vector>

#include "simplecss.h"

namespace simplecss {

/* Why a call has no answer. Of a faulty tree `fault` and `element`, counted from 1, say what it is. */
struct Error : std::runtime_error {
    Error(const std::string &message, std::uint32_t status_, simplecss_tree_fault where = {0, 0})
        : std::runtime_error(message), status(status_), fault(where.fault), element(where.element) {}
    std::uint32_t status, fault;
    std::size_t element;
};

namespace detail {
/* Where the bytes of a text are. The library takes no null pointer. */
inline const std::uint8_t *bytes(std::string_view text) {
    return reinterpret_cast<const std::uint8_t *>(text.empty() ? "" : text.data());
}

/* Throws what a status means, but for SIMPLECSS_DONE. */
inline void check(std::uint32_t status, simplecss_tree_fault where = {0, 0}) {
    static const char *const reasons[] = {"", "refused", "a faulty tree", "", "more than a limit", "not UTF-8", "", "too many layers",
                                          "the object was moved from"};
    if (status == SIMPLECSS_OUT_OF_MEMORY) throw std::bad_alloc();
    if (status != SIMPLECSS_DONE) throw Error(status < std::size(reasons) ? reasons[status] : "unknown", status, where);
}

/* What a call writes, which is called again where its first buffer is too small. */
template <class Unit, class Call> std::vector<Unit> answer(Call call) {
    std::vector<Unit> out(64);
    std::size_t len = 0;
    std::uint32_t status = 0;
    while ((status = call(out.data(), out.size(), &len)) == SIMPLECSS_TOO_SMALL) out.resize(len);
    check(status);
    out.resize(len);
    return out;
}

/* What is kept behind a handle, until it is moved from or destroyed. */
template <class Handle, void (*Free)(Handle *)> class Kept {
public:
    Kept(Kept &&other) noexcept : handle(std::exchange(other.handle, Handle{nullptr})) {}
    Kept &operator=(Kept &&other) noexcept {
        std::swap(handle, other.handle);
        return *this;
    }
    ~Kept() { Free(&handle); }

protected:
    Kept() = default;
    Handle handle{nullptr};
};
} // namespace detail

/* Elements in document order, each with its depth, from which a page is made. */
class Tree {
public:
    using Attributes = std::initializer_list<std::pair<std::string_view, std::string_view>>;
    /* Adds an element, whose states are such as SIMPLECSS_LINK | SIMPLECSS_HAS_TEXT, and returns its index. */
    std::size_t add(std::size_t depth, std::string_view name, Attributes attributes = {}, std::size_t states = 0) {
        put(name);
        for (const auto &[key, value] : attributes) put(key), put(value);
        elements.push_back({depth, attributes.size(), states, 0});
        return elements.size() - 1;
    }
    /* The tree as calls take it, until an element is added. For namespaces and further states fill in one by hand. */
    simplecss_tree view() const {
        static const simplecss_element element = {0, 0, 0, 0};
        static const simplecss_namespaced_attribute attribute = {0, 0};
        static const std::size_t number = 0;
        return {elements.empty() ? &element : elements.data(), elements.size(), detail::bytes(strings), strings.size(),
                ends.empty() ? &number : ends.data(), ends.size(), &attribute, 0, 0, &number, 0};
    }

private:
    void put(std::string_view text) { ends.push_back(strings.append(text).size()); }
    std::vector<simplecss_element> elements;
    std::string strings;
    std::vector<std::size_t> ends;
};

/* Where a list of selectors has its first error and why, as "1 5 `>` begins no selector", or nothing where it has none. */
inline std::string refusal(std::string_view text, std::size_t grammar = SIMPLECSS_MODERN) {
    const Tree none;
    const simplecss_tree tree = none.view();
    simplecss_tree_fault fault = {0, 0};
    const auto written = detail::answer<std::uint8_t>([&](std::uint8_t *out, std::size_t size, std::size_t *len) {
        return simplecss_refusal(detail::bytes(text), text.size(), grammar, &tree, out, size, len, &fault);
    });
    return std::string(written.begin(), written.end());
}

/* A selector of a list: where it is in the text, its specificity, and its text as CSSOM serializes it. */
struct Selector {
    std::size_t start, length, ids, classes, types;
    std::string text;
};

/* A list of selectors. */
class List : public detail::Kept<simplecss_kept_list, simplecss_list_free> {
public:
    explicit List(std::string_view text, std::size_t grammar = SIMPLECSS_MODERN) {
        const auto status = simplecss_list_new(detail::bytes(text), text.size(), grammar, &handle);
        if (status == SIMPLECSS_REFUSED && grammar <= SIMPLECSS_PORT) throw Error(refusal(text, grammar), status);
        detail::check(status);
    }
    /* The selectors, in order. */
    std::vector<Selector> selectors() {
        const auto numbers = detail::answer<std::size_t>([&](std::size_t *out, std::size_t size, std::size_t *len) {
            return simplecss_list_numbers(&handle, out, size, len);
        });
        const auto texts = detail::answer<std::uint8_t>([&](std::uint8_t *out, std::size_t size, std::size_t *len) {
            return simplecss_list_text(&handle, out, size, len);
        });
        std::vector<Selector> found;
        auto from = texts.begin();
        for (auto row = numbers.begin(); row != numbers.end(); row += 10) {
            const auto to = from + static_cast<std::ptrdiff_t>(row[9]);
            found.push_back({row[0], row[1], row[3], row[4], row[5], std::string(from, to)});
            from = to;
        }
        return found;
    }
};

/* A style sheet: a copy of a text. */
class Sheet : public detail::Kept<simplecss_kept_sheet, simplecss_sheet_free> {
public:
    explicit Sheet(std::string_view text) { detail::check(simplecss_sheet_new(detail::bytes(text), text.size(), &handle)); }
    /* The numbers of what is asked, SIMPLECSS_STATEMENTS or SIMPLECSS_CONTENTS. */
    std::vector<std::size_t> numbers(std::size_t asked, std::size_t most = SIMPLECSS_NO_LIMIT) {
        return detail::answer<std::size_t>([&](std::size_t *out, std::size_t size, std::size_t *len) {
            return simplecss_sheet_numbers(&handle, asked, most, out, size, len);
        });
    }
    /* The text of what is asked, such as SIMPLECSS_LINES. */
    std::string text(std::size_t asked = SIMPLECSS_SHORT) {
        const auto written = detail::answer<std::uint8_t>([&](std::uint8_t *out, std::size_t size, std::size_t *len) {
            return simplecss_sheet_text(&handle, asked, out, size, len);
        });
        return std::string(written.begin(), written.end());
    }
};

/* A page: a copy of a tree, made ready to be asked. Elements are counted from 0. */
class Page : public detail::Kept<simplecss_kept_page, simplecss_page_free> {
public:
    static constexpr std::size_t ALL = SIZE_MAX, ROOT = SIZE_MAX;
    explicit Page(const simplecss_tree &tree, std::size_t grammar = SIMPLECSS_HTML) {
        simplecss_tree_fault fault = {0, 0};
        const auto status = simplecss_page_new(&tree, grammar, &handle, &fault);
        detail::check(status, fault);
    }
    explicit Page(const Tree &tree, std::size_t grammar = SIMPLECSS_HTML) : Page(tree.view(), grammar) {}
    /* The elements that one of the selectors matches, from one up to another; `:scope` matches the element `scope`. */
    std::vector<std::size_t> select(std::string_view selectors, std::size_t scope = ROOT, std::size_t from = 0,
                                    std::size_t to = ALL, std::size_t most = SIMPLECSS_NO_LIMIT) {
        auto found = detail::answer<std::size_t>([&](std::size_t *out, std::size_t size, std::size_t *len) {
            return simplecss_page_select(&handle, detail::bytes(selectors), selectors.size(), scope == ROOT ? 0 : scope + 1,
                                         from, to, most, out, size, len);
        });
        for (auto &each : found) --each;
        return found;
    }
    /* Whether one of the selectors matches an element, which is also what `:scope` matches. */
    bool matches(std::size_t element, std::string_view selectors) {
        return element != ALL && !select(selectors, element, element, element + 1).empty();
    }
};

/* A query: copies of a tree, of one style sheet and of no declarations beside it, made ready to be asked. Elements are
 * counted from 0. */
class Query : public detail::Kept<simplecss_kept_query, simplecss_query_free> {
public:
    static constexpr std::size_t ALL = SIZE_MAX;
    Query(const simplecss_tree &tree, const simplecss_sheets &sheets, const simplecss_own &own,
          std::size_t grammar = SIMPLECSS_HTML, std::size_t limit = SIMPLECSS_NO_LIMIT) {
        simplecss_tree_fault fault = {0, 0};
        const auto status = simplecss_query_new(&tree, grammar, &sheets, limit, &own, &handle, &fault);
        detail::check(status, fault);
    }
    Query(const Tree &tree, std::string_view sheet, std::size_t grammar = SIMPLECSS_HTML) : Query(tree.view(), sheet, grammar) {}
    /* The numbers of what is asked, such as SIMPLECSS_WINNERS, of the elements from one up to another. */
    std::vector<std::size_t> numbers(std::size_t asked, std::size_t from = 0, std::size_t to = ALL,
                                     std::size_t most = SIMPLECSS_NO_LIMIT) {
        static const std::size_t number = 0;
        return numbers(asked, {detail::bytes(""), 0, &number, 0, &number, 0}, from, to, most);
    }
    /* The same with the names of SIMPLECSS_WINNERS_NAMED. */
    std::vector<std::size_t> numbers(std::size_t asked, const simplecss_asked &names, std::size_t from = 0,
                                     std::size_t to = ALL, std::size_t most = SIMPLECSS_NO_LIMIT) {
        return detail::answer<std::size_t>([&](std::size_t *out, std::size_t size, std::size_t *len) {
            return simplecss_query_numbers(&handle, asked, &names, from, to, most, out, size, len);
        });
    }

    /* The texts of the selectors of the rules, in the order of SIMPLECSS_RULES, one after another. */
    std::string texts(std::size_t most = SIMPLECSS_NO_LIMIT) {
        const auto written = detail::answer<std::uint8_t>([&](std::uint8_t *out, std::size_t size, std::size_t *len) {
            return simplecss_query_text(&handle, most, out, size, len);
        });
        return std::string(written.begin(), written.end());
    }

private:
    Query(const simplecss_tree &tree, std::string_view sheet, std::size_t grammar)
        : Query(tree, sheets_of(sheet, sheet.size()), own_of(0), grammar) {}
    /* The temporary `end` lives until the query is made. */
    static simplecss_sheets sheets_of(std::string_view sheet, const std::size_t &end) {
        const auto none = detail::bytes("");
        return {detail::bytes(sheet), sheet.size(), &end, 1, &end, 0, none, 0, &end, 0, &end, 0, &end, 0, none, 0, &end, 0};
    }
    static simplecss_own own_of(const std::size_t &number) { return {detail::bytes(""), 0, &number, 0}; }
};

} // namespace simplecss

#endif
