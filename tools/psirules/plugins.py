"""Tables of the plugins that psi_oomd knows, as in docs/RULES.md, and of the plugins that only oomd
0.5.0 knows.
"""
from dataclasses import dataclass, field
from enum import Enum


class Form(Enum):
    """The forms of arguments. The values are descriptions for messages."""

    PATTERNS = "1 to 16 patterns of groups' paths, with commas between"
    RESOURCE = "io or memory"
    PERCENT = "a whole number from 0 to 100"
    SECONDS = "a whole number of seconds from 0 to 1000000"
    RATIO = "a number up to 1000 with at most three decimals"
    SIZE = "a number of bytes, or one with K, M, G or T, or a percentage"
    TRUTH = "true or false"


@dataclass(frozen=True)
class Plugin:
    """A plugin's arguments, each with its form. `of_oomd` has the arguments that only oomd knows,
    and that psi_oomd ignores.
    """

    required: dict[str, Form]
    optional: dict[str, Form] = field(default_factory=dict)
    of_oomd: tuple[str, ...] = ()

    def form_of(self, argument: str) -> Form | None:
        return self.required.get(argument) or self.optional.get(argument)

    def arguments(self) -> list[str]:
        return [*self.required, *self.optional]


def _action(
    required: dict[str, Form], optional: dict[str, Form] | None = None, *of_oomd: str
) -> Plugin:
    """Returns the arguments of an action, including those that all actions have."""
    every = {
        "recursive": Form.TRUTH,
        "always_continue": Form.TRUTH,
        "post_action_delay": Form.SECONDS,
    }
    return Plugin(
        {"cgroup": Form.PATTERNS, **required},
        {**(optional or {}), **every},
        ("dry", "debug", *of_oomd),
    )


_PRESSURE = {
    "cgroup": Form.PATTERNS,
    "resource": Form.RESOURCE,
    "threshold": Form.PERCENT,
    "duration": Form.SECONDS,
}
_MEMORY = {"cgroup": Form.PATTERNS, "threshold": Form.SIZE, "duration": Form.SECONDS}

DETECTORS = {
    "pressure_above": Plugin(_PRESSURE),
    "pressure_rising_beyond": Plugin(_PRESSURE, {"fast_fall_ratio": Form.RATIO}),
    "memory_above": Plugin(_MEMORY, {}, ("threshold_anon", "debug", "meminfo_location")),
    "memory_reclaim": Plugin({"cgroup": Form.PATTERNS, "duration": Form.SECONDS}),
    "swap_free": Plugin({"threshold_pct": Form.PERCENT}),
    "exists": Plugin({"cgroup": Form.PATTERNS}, {"negate": Form.TRUTH}, ("debug",)),
}
ACTIONS = {
    "kill_by_memory_size_or_growth": _action(
        {},
        {
            "size_threshold": Form.PERCENT,
            "growing_size_percentile": Form.PERCENT,
            "min_growth_ratio": Form.RATIO,
        },
    ),
    "kill_by_swap_usage": _action({}, {"threshold": Form.SIZE}, "meminfo_location"),
    "kill_by_pressure": _action({"resource": Form.RESOURCE}),
    "kill_by_pg_scan": _action({}),
}


class Effect(Enum):
    """What a plugin that only oomd knows does to the list of plugins that contains it."""

    CONTINUES = "lets what follows it go on, and does nothing that a replay shows"
    STOPS = "ends its list"
    DECIDES = "decides by what no trace has"
    ACTS = "does what no replay shows"
    WAITS_FOR_CPU = "looks at a resource that is neither io nor memory"


OF_OOMD = {
    "continue": Effect.CONTINUES,
    "dump_cgroup_overview": Effect.CONTINUES,
    "stop": Effect.STOPS,
    "nr_dying_descendants": Effect.DECIDES,
    "kill_by_io_cost": Effect.DECIDES,
    "senpai": Effect.ACTS,
    "systemd_restart": Effect.ACTS,
}
"""The plugins of oomd 0.5.0 that psi_oomd doesn't know, by their names in oomd."""

TOP_KEYS = ("rulesets",)
TOP_KEYS_OF_OOMD = ("prekill_hooks", "version")
RULESET_KEYS = ("name", "detectors", "actions", "post_action_delay")
RULESET_KEYS_OF_OOMD = ("silence-logs", "drop-in", "prekill_hook_timeout")
PLUGIN_KEYS = ("name", "args")
