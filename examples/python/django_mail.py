"""Mail by Django: a backend that writes the sheets of each mail into `style` attributes.

    EMAIL_BACKEND = "django_mail.InlineBackend"
    INLINE_BACKEND = "django.core.mail.backends.smtp.EmailBackend"
    INLINE_CSS = "p { margin: 0 }"

`inline_css` is a filter for templates: `{% filter inline_css %}..{% endfilter %}`.
"""

from typing import Any, Sequence

import simplecss
from django import template
from django.conf import settings
from django.core.mail import EmailMessage
from django.core.mail.backends.base import BaseEmailBackend
from django.utils.html import conditional_escape
from django.utils.module_loading import import_string
from django.utils.safestring import SafeString, mark_safe

register = template.Library()


@register.filter(is_safe=True)
def inline_css(text: Any) -> SafeString:
    """Returns markup with the sheets of the settings and its own written into attributes."""
    inliner = simplecss.Inliner(getattr(settings, "INLINE_CSS", ""))
    return mark_safe(inliner.inline(str(conditional_escape(text))))


class InlineBackend(BaseEmailBackend):
    """Sends mails by another backend, with their sheets written into attributes."""

    def __init__(self, fail_silently: bool = False, **options: Any) -> None:
        super().__init__(fail_silently=fail_silently)
        self._inliner = simplecss.Inliner(getattr(settings, "INLINE_CSS", ""))
        self._backend = import_string(settings.INLINE_BACKEND)(
            fail_silently=fail_silently, **options
        )

    def send_messages(self, email_messages: Sequence[EmailMessage]) -> int:
        """Sends mails. Returns how many were sent."""
        for message in email_messages:
            if message.content_subtype == "html":
                message.body = self._inliner.inline(message.body)
            others, message.alternatives = getattr(message, "alternatives", None) or [], []
            for content, kind in others:
                is_html = kind == "text/html" and isinstance(content, str)
                message.attach_alternative(
                    self._inliner.inline(content) if is_html else content, kind
                )
        return self._backend.send_messages(email_messages) or 0
