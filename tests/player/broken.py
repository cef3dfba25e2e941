"""Breaks of the model, to see that a difference is found: each puts one function of the model out of its place. It is called with that
function first, which is right, and then as that one is."""

import model
from model import Server, World

BREAKS = {}


def instead(owner, right):
    """The function stands in the place of this one of the owner's."""

    def put(function):
        BREAKS[function.__name__] = owner, right, function
        return function

    return put


def put_in(name):
    """Breaks the model so."""
    owner, of, function = BREAKS[name]
    right = getattr(owner, of)
    setattr(owner, of, lambda *given, **named: function(right, *given, **named))


# What a node shows.


def last_entry(world, node):
    return world.server.log[node.version - 1] if node.version else None


def writes_same(change, other):
    """Whether two changes write the same of one object."""
    word = lambda it: "put" if it[0] in ("set", "clear") else it[0]
    return change[1] == other[1] and word(change) == word(other) and (word(change) != "put" or change[2] == other[2])


def without_written(right, world, node, words):
    """What waits, but for what another's entry has just written."""
    last = last_entry(world, node)
    foreign = last and last.author != node.id and last.change and last.change[0] in words and last.outcome[0] != "refused"
    return [change for change in right(world, node) if not (foreign and writes_same(change, last.change))]


@instead(World, "laid")
def foreign_move_shows_over_a_waiting_one(right, world, node):
    return without_written(right, world, node, ["move"])


@instead(World, "laid")
def foreign_value_shows_over_a_waiting_one(right, world, node):
    return without_written(right, world, node, ["set", "clear"])


def with_refused(right, world, node, word):
    """What waits, and an edit of this kind that was just refused."""
    last = last_entry(world, node)
    stays = last and last.author == node.id and last.change and last.change[0] == word and last.outcome[0] == "refused"
    return [*([last.change] if stays else []), *right(world, node)]


@instead(World, "laid")
def refused_move_keeps_its_place(right, world, node):
    return with_refused(right, world, node, "move")


@instead(World, "laid")
def refused_creation_stays(right, world, node):
    return with_refused(right, world, node, "create")


@instead(World, "laid")
def granted_place_is_the_one_asked_for(right, world, node):
    last = last_entry(world, node)
    return [*([last.change] if last and last.author == node.id and last.outcome[0] == "moved" else []), *right(world, node)]


@instead(model, "in_order")
def equal_positions_stand_the_later_id_first(right, document, names):
    return sorted(sorted(names, reverse=True), key=lambda name: document[name].position)


def hide(node, world, words):
    """Notes that the node passes over the next entry, where that writes what is out of its tree."""
    change, view = world.server.log[node.version].change, world.view(node)
    if change and change[0] in words and change[1] in view and not model.is_in_tree(view, change[1]):
        node.passed = getattr(node, "passed", set()) | {node.version + 1}


def view_without_passed(world, node):
    """What a node shows that has passed over some entries."""
    document = model.EMPTY
    for version, entry in enumerate(world.server.log[: node.version], 1):
        if version not in getattr(node, "passed", ()):
            document = model.document_after(document, entry)
    for change in node.waiting():
        document = model.lay(document, change)
    return document


@instead(World, "receive_entry")
def hidden_objects_take_no_values(right, world, node, version, author):
    if version == node.version + 1 and author != node.id:
        hide(node, world, ["set", "clear"])
    world.view = lambda node: view_without_passed(world, node)
    return right(world, node, version, author)


@instead(World, "receive_entry")
def hidden_objects_take_no_places(right, world, node, version, author):
    if version == node.version + 1 and author != node.id:
        hide(node, world, ["move"])
    world.view = lambda node: view_without_passed(world, node)
    return right(world, node, version, author)


@instead(World, "edit")
def deletion_forgets_what_lies_below(right, world, name, *asked):
    node = world.node(name)
    view, answer = world.view(node), right(world, name, *asked)
    if asked[0] == "delete" and answer.startswith("edit "):
        node.lost = getattr(node, "lost", set()) | set(model.below(view, asked[1])) - {asked[1]}
    world.view = lambda node: model.without(World.view(world, node), getattr(node, "lost", ()))
    return answer


# What a node takes, and refuses its user.


@instead(World, "receive_copy")
def copy_drops_no_edits(right, world, node, version, done):
    before = node.acknowledged
    answer = right(world, node, version, done)
    node.acknowledged = before
    return answer


@instead(World, "receive_copy")
def copy_of_the_same_version_is_taken(right, world, node, version, done):
    return "took" if version == node.version else right(world, node, version, done)


@instead(World, "receive_entry")
def entries_may_be_left_out(right, world, node, version, author):
    answer = right(world, node, version, author)
    return "took" if answer == "ahead" else answer


@instead(World, "receive_welcome")
def second_welcome_is_taken(_, world, node, given):
    node.id = given
    return "took"


@instead(World, "refusal_there")
def parent_is_looked_at_before_the_child(right, world, view, word, what, parent, after):
    return right(world, view, word, what, parent, after) if model.is_in_tree(view, parent) else "ParentNotShown"


@instead(World, "refusal_there")
def cycle_is_looked_for_before_the_kind(right, world, view, word, what, parent, after):
    refusal = right(world, view, word, what, parent, after)
    return "OwnDescendant" if refusal == "BadParent" and what in model.above(view, parent) else refusal


@instead(World, "refusal_of")
def hidden_objects_can_be_edited(right, world, node, view, asked):
    refusal = right(world, node, view, asked)
    return None if refusal == "NotShown" and asked[0] in ("set", "clear") and asked[1] in view else refusal


# How the server judges.


@instead(Server, "reason_there")
def cycle_is_granted(right, server, *asked):
    reason = right(server, *asked)
    return None if reason == "Cycle" else reason


@instead(Server, "reason_there")
def cycle_looks_at_the_parent_alone(right, server, document, word, name, *asked):
    reason = right(server, document, word, name, *asked)
    return None if reason == "Cycle" and name != asked[1] else reason


@instead(Server, "reason_there")
def cycle_is_looked_for_before_the_kind_by_the_server(right, server, document, word, name, kind, parent, position):
    reason = right(server, document, word, name, kind, parent, position)
    return "Cycle" if reason == "BadParent" and word == "move" and name in model.above(document, parent) else reason


@instead(Server, "reason_against")
def parent_is_looked_at_before_the_id(right, server, author, change):
    reason = right(server, author, change)
    return "ParentGone" if reason == "BadId" and change[3] not in server.documents[-1] else reason


@instead(Server, "judge")
def deletion_leaves_the_children(right, server, author, change):
    outcome = right(server, author, change)
    return ("removed", [change[1]]) if outcome[0] == "removed" else outcome


@instead(Server, "used")
def refused_creations_use_their_ids(_, server, author):
    return max((entry.change[1][1] for entry in server.edits[author] if entry.change[0] == "create" and entry.change[1][0] == author), default=0)


@instead(Server, "place_carried")
def refusal_carries_no_place(_, server, document, word, name):
    return None


@instead(Server, "granted")
def taken_position_is_given(_, server, document, name, parent, position):
    return position


@instead(model, "siblings")
def moved_object_is_its_own_sibling(right, document, parent, moved=None):
    return right(document, parent)


@instead(model, "half_way")
def middle_is_rounded_up(_, least, greatest):
    return (least + greatest + 1) // 2


@instead(model, "middle")
def position_of_128_bytes_is_too_long(right, low, high):
    position = right(low, high)
    return position if position is None or len(position) < model.LONGEST else None


@instead(model, "create_too_deep")
def objects_may_stand_at_101(_, document, parent):
    return model.depth_of(document, parent) > model.DEEPEST


@instead(model, "move_too_deep")
def move_looks_at_the_moved_object_alone(_, document, name, parent):
    return document[name].parent != parent and model.depth_of(document, parent) + 1 > model.DEEPEST


@instead(model, "document_after")
def clear_is_passed_over(right, document, entry):
    return document if entry.change and entry.change[0] == "clear" else right(document, entry)


# How the server takes, tells and starts again.


@instead(World, "told_of_edit")
def repeat_is_judged(right, world, author, number):
    told = right(world, author, number)
    return None if told == "repeat" else told


@instead(World, "told_of_edit")
def gap_is_judged(right, world, author, number):
    told = right(world, author, number)
    return None if told == "gap" else told


@instead(Server, "truncate")
def restart_keeps_what_was_not_synced(_, server, version):
    pass


@instead(World, "restart")
def restart_keeps_the_floor(right, world, version):
    floor = world.floor
    answer = right(world, version)
    world.floor = floor
    return answer


@instead(World, "publish")
def publishes_what_is_not_synced(_, world):
    world.published = world.server.version
    return f"published {world.published}"


@instead(World, "checkpoint")
def checkpoint_takes_what_is_not_published(_, world):
    world.floor = world.server.version
    return f"floor {world.floor}"


@instead(World, "tell")
def entries_below_the_floor_are_told(right, world, version, name):
    floor, world.floor = world.floor, 0
    answer = right(world, version, name)
    world.floor = floor
    return answer


@instead(World, "copy")
def copy_is_told_before_all_is_published(right, world, name):
    published, world.published = world.published, world.server.version
    answer = right(world, name)
    world.published = published
    return answer
