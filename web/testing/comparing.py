"""Whether a response of plan says what `tp ask` says."""
from typing import Any

Json = dict[str, Any]


def points_of(line: Json) -> list[tuple[float, float]]:
    """The points of an encoded polyline, as latitude and longitude."""
    numbers, bits, shift = [], 0, 0
    for character in line["points"]:
        group = ord(character) - 63
        bits |= (group & 31) << shift
        shift += 5
        if group < 32:
            numbers.append(~(bits >> 1) if bits & 1 else bits >> 1)
            bits = shift = 0
    points, latitude, longitude = [], 0, 0
    for at in range(0, len(numbers), 2):
        latitude, longitude = latitude + numbers[at], longitude + numbers[at + 1]
        points.append((latitude / 10 ** line["precision"], longitude / 10 ** line["precision"]))
    return points


def features_of(collection: Json | None, number: int) -> list[Json] | None:
    """The features of a journey's legs."""
    if collection is None:
        return None
    return [it for it in collection["features"] if it["properties"]["journey"] == number]


def is_place(given: Json, place: Json) -> bool:
    names = (place["name"] or place["id"], place["id"], place["latitude"], place["longitude"], place["platform"])
    return (given["name"], given["stopId"], given.get("lat"), given.get("lon"), given.get("track")) == names


def is_line(given: Json, leg: Json, feature: Json | None) -> bool:
    """Whether a leg's line is that of its feature; without one, whether it is straight. The last digits may differ."""
    places = [leg["from"], leg["to"]]
    wanted = [(place["latitude"], place["longitude"]) for place in places if place["latitude"] is not None]
    if feature is not None and feature["geometry"] is not None:
        wanted = [(latitude, longitude) for longitude, latitude in feature["geometry"]["coordinates"]]
    points = points_of(given)
    close = all(abs(a - b) < 1e-5 for one, other in zip(points, wanted) for a, b in zip(one, other))
    return len(points) == len(wanted) == given["length"] and close


def is_leg(given: Json, leg: Json, feature: Json | None) -> bool:
    times = (leg["departure"]["iso"], leg["arrival"]["iso"])
    same = given["mode"] == ("TRANSIT" if leg["kind"] == "ride" else "WALK")
    same &= (given["startTime"], given["endTime"]) == times == (given["from"]["departure"], given["to"]["arrival"])
    same &= given["duration"] == leg["seconds"] and is_line(given["legGeometry"], leg, feature)
    same &= is_place(given["from"], leg["from"]) and is_place(given["to"], leg["to"])
    trip = leg["trip"] or {"id": None, "headsign": None, "short_name": None, "route": None}
    route = trip["route"] or {"id": None, "short_name": None, "long_name": None}
    wanted = (trip["id"], trip["headsign"], trip["short_name"], route["id"], route["short_name"], route["long_name"])
    names = ("tripId", "headsign", "tripShortName", "routeId", "routeShortName", "routeLongName")
    return same and tuple(given.get(name) for name in names) == wanted


def is_journey(given: Json, journey: Json, features: list[Json] | None) -> bool:
    same = (given["startTime"], given["endTime"]) == (journey["departure"]["iso"], journey["arrival"]["iso"])
    same &= given["duration"] == journey["seconds"] and given["transfers"] == max(journey["rides"] - 1, 0)
    wanted: list[Json | None] = [None] * len(journey["legs"]) if features is None else [*features]
    return same and len(given["legs"]) == len(journey["legs"]) == len(wanted) and all(map(is_leg, given["legs"], journey["legs"], wanted))


def is_plan(given: Json, answer: Json, collection: Json | None = None) -> bool:
    """Whether a response has the same places, and a journey for each of the answer's, those on foot apart; with the lines of a collection
    of GeoJSON, if it is given."""
    if not (is_place(given["from"], answer["from"]) and is_place(given["to"], answer["to"])):
        return False
    for name, on_foot in (("direct", True), ("itineraries", False)):
        wanted = [(journey, features_of(collection, number)) for number, journey in enumerate(answer["journeys"], 1)
                  if (journey["rides"] == 0) == on_foot]
        if len(given[name]) != len(wanted) or not all(is_journey(one, *other) for one, other in zip(given[name], wanted)):
            return False
    return True
