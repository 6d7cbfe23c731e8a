/* Makes, moves, asks and destroys the objects of simplecss.hpp, for a run under valgrind: the exit status is 0 if each
   answer is as it must be, by the words of Selectors 4 on the tree of this page, and of CSSOM, "Serializing Selectors":

     0 html > 1 body > 2 div#a > 3 p.x, 4 p
                       5 div#b > 6 p.x > 7 span */
#include <simplecss.hpp>
#include <cstdio>
#include <type_traits>

namespace {

int failures;

void want(const char *what, const std::string &got, const std::string &wanted) {
    if (got == wanted) return;
    std::printf("%s: %s, not %s\n", what, got.c_str(), wanted.c_str());
    failures++;
}

std::string shown(const std::vector<std::size_t> &numbers) {
    std::string text;
    for (std::size_t each : numbers) text += (text.empty() ? "" : " ") + std::to_string(each);
    return text;
}

/* What a call throws. */
template <class Call> std::string thrown(Call call) {
    try {
        call();
    } catch (const simplecss::Error &error) {
        return std::to_string(error.status) + " " + std::to_string(error.fault) + " " + std::to_string(error.element) + " " + error.what();
    }
    return "nothing";
}

simplecss::Tree made() {
    simplecss::Tree tree;
    tree.add(0, "html");
    tree.add(1, "body");
    tree.add(2, "div", {{"id", "a"}});
    tree.add(3, "p", {{"class", "x"}});
    tree.add(3, "p", {}, SIMPLECSS_HAS_TEXT);
    tree.add(2, "div", {{"id", "b"}});
    tree.add(3, "p", {{"title", ""}, {"class", "x"}});
    tree.add(4, "span");
    return tree;
}

/* A page whose tree is gone. */
simplecss::Page page() { return simplecss::Page(made()); }

void pages() {
    simplecss::Page first = page(), second(simplecss::Tree{});
    want("all", shown(first.select("*")), "0 1 2 3 4 5 6 7");
    want("lists", shown(first.select("P.x, span")), "3 6 7");
    want("states", shown(first.select("p:empty")), "3");
    want("ranges", shown(first.select("p", simplecss::Page::ROOT, 4, 6)), "4");
    want("scopes", shown(first.select(":scope > p", 5)), "6");
    want("the root", shown(first.select(":scope > body")), "1");
    want("has", shown(first.select("div:has(> p > span)")), "5");
    want("matches", std::to_string(first.matches(6, "div > :scope") + 2 * first.matches(6, "span") + 4 * first.matches(99, "*")), "1");
    want("no element", shown(second.select("*")), "");
    second = std::move(first);
    want("moved", shown(second.select("#b")), "5");
    want("swapped", shown(first.select("*")), "");
    const simplecss::Page third(std::move(second));
    want("moved from", thrown([&] { second.select("*"); }), "8 0 0 the object was moved from");
    want("refused", thrown([&] { first.select("a >> b"); }), "1 0 0 refused");
    want("limited", thrown([&] { page().select("*", simplecss::Page::ROOT, 0, 8, 3); }), "4 0 0 more than a limit");
    want("bytes", thrown([&] { first.select("\xff"); }), "5 0 0 not UTF-8");
    want("grammars", thrown([] { simplecss::Page(made(), SIMPLECSS_PORT); }), "1 0 0 refused");
    want("depths", thrown([] {
        simplecss::Tree tree = made();
        tree.add(7, "i");
        simplecss::Page none(tree);
    }), "2 1 9 a faulty tree");
}

void lists() {
    simplecss::List first("a > b, .c:not(.d, #e)[f=\"g\"]::before"), second(std::move(first));
    const auto found = second.selectors();
    want("how many", std::to_string(found.size()), "2");
    want("printed", found[0].text + "|" + found[1].text, "a > b|.c:not(.d, #e)[f=\"g\"]::before");
    const auto &[start, length, ids, classes, types, text] = found[1];
    want("numbers", shown({start, length, ids, classes, types, text.size()}), "7 29 1 2 1 29");
    want("moved from", thrown([&] { first.selectors(); }), "8 0 0 the object was moved from");
    first = simplecss::List("i");
    want("made again", first.selectors()[0].text, "i");
    want("refused", thrown([] { simplecss::List(".a >> b"); }), "1 0 0 1 5 `>` begins no selector");
    want("empty", thrown([] { simplecss::List(std::string_view{}); }).substr(0, 6), "1 0 0 ");
    want("why", simplecss::refusal(".a >> b") + simplecss::refusal("a"), "1 5 `>` begins no selector");
    std::string many = "a";
    for (int number = 0; number < 99; number++) many += ",a";
    want("many", std::to_string(simplecss::List(many).selectors().size()), "100");
}

static_assert(!std::is_copy_constructible_v<simplecss::Page> && !std::is_copy_assignable_v<simplecss::List>);
static_assert(std::is_nothrow_move_constructible_v<simplecss::Page> && std::is_nothrow_move_assignable_v<simplecss::List>);
static_assert(sizeof(simplecss::Page) == sizeof(void *));

void sheets() {
    simplecss::Sheet first("a { b : c }"), second("@import 'd';");
    want("short", first.text(), "a{b:c}");
    want("lines", first.text(SIMPLECSS_LINES), "a {\n  b: c;\n}\n");
    want("statements", std::to_string(first.numbers(SIMPLECSS_STATEMENTS).size()), "32");
    want("imports", second.text(SIMPLECSS_IMPORTS), "0 12 1 1 0 0 0 0 0\nd\n");
    first = std::move(second);
    want("moved", first.text(), "@import 'd';");
    want("another question", thrown([&] { first.numbers(2); }), "1 0 0 refused");
    want("not UTF-8", thrown([] { simplecss::Sheet("\xff"); }), "5 0 0 not UTF-8");
}

} // namespace

void queries() {
    simplecss::Query first(made(), ".x { a: 1 } p { b: 2 } div:has(span) { c: 3 }");
    simplecss::Query second(std::move(first));
    want("matches", shown(second.numbers(SIMPLECSS_MATCHES)), "0 0 0 2 0 2 1 0 1 1 2 0 2 0");
    want("a range", shown(second.numbers(SIMPLECSS_WINNERS, 3, 4)), "2 0 0 2 0");
    want("texts", second.texts(), "pdiv:has(span).x");
    const std::size_t ends[] = {1, 2}, counts[] = {1, 1};
    const simplecss_asked names = {simplecss::detail::bytes("ac"), 2, ends, 2, counts, 2};
    want("names", shown(second.numbers(SIMPLECSS_WINNERS_NAMED, names, 5, 7)), "5 0 1 0 2 0 5 0");
    want("another question", thrown([&] { second.numbers(5); }), "1 0 0 refused");
    want("moved from", thrown([&] { first.numbers(SIMPLECSS_RULES); }), "8 0 0 the object was moved from");
    want("not UTF-8", thrown([] { simplecss::Query(made(), "\xff"); }), "5 0 0 not UTF-8");
}

int main() {
    pages();
    lists();
    sheets();
    queries();
    std::printf("%d failures\n", failures);
    return failures != 0;
}
