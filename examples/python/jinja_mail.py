"""Mail by Jinja2: a filter that writes a sheet into `style` attributes.

    {% filter inline_css %}<h1>{{ title }}</h1>{% endfilter %}
"""

from typing import Any, Union

import jinja2
import markupsafe
import simplecss


def add_filter(environment: jinja2.Environment, css: str = "", **options: Any) -> None:
    """Adds the filter `inline_css`, which takes the options of `simplecss.Inliner`."""
    inliner = simplecss.Inliner(css, **options)

    @jinja2.pass_eval_context
    def inline_css(context: Any, text: Any) -> Union[str, markupsafe.Markup]:
        if not context.autoescape:
            return inliner.inline(str(text))
        # A text that is no markup yet is escaped first.
        return markupsafe.Markup(inliner.inline(str(markupsafe.escape(text))))

    environment.filters["inline_css"] = inline_css


if __name__ == "__main__":
    made = jinja2.Environment(autoescape=True)
    add_filter(made, "h1 { color: green }")
    template = "{% filter inline_css %}<h1>{{ title }}</h1>{% endfilter %}"
    print(made.from_string(template).render(title="Fish & chips"))
