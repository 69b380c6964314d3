"""Answers of `tp` in the words of MOTIS 2's interface."""
from collections.abc import Iterator
from typing import Any

from .lines import Line
from .shapes import PRECISION, polyline
from .stops import Stop

Json = dict[str, Any]


def without_none(fields: Json) -> Json:
    """The fields that have a value."""
    return {name: value for name, value in fields.items() if value is not None}


def place_of(place: Json, arrival: str | None = None, departure: str | None = None) -> Json:
    """A Place. The id stands for a name that the feed lacks, and a position is left out if the feed lacks it."""
    return without_none({
        "name": place["name"] or place["id"], "stopId": place["id"], "lat": place["latitude"], "lon": place["longitude"], "level": 0,
        "vertexType": "TRANSIT", "track": place["platform"], "scheduledTrack": place["platform"],
        "arrival": arrival, "scheduledArrival": arrival, "departure": departure, "scheduledDeparture": departure,
    })


def shown_name(trip: Json) -> str | None:
    """What a traveller reads on the vehicle: the route's short or long name or id, then the trip's short name."""
    route = trip["route"] or {}
    names = [route.get("short_name") or route.get("long_name") or route.get("id"), trip["short_name"]]
    return " ".join(name for name in names if name) or None


def trip_fields(trip: Json) -> Json:
    """The fields of a leg that only a ride has."""
    route = trip["route"] or {}
    return without_none({
        "tripId": trip["id"], "headsign": trip["headsign"], "tripShortName": trip["short_name"], "displayName": shown_name(trip),
        "routeId": route.get("id"), "routeShortName": route.get("short_name"), "routeLongName": route.get("long_name"),
    })


def geometry_of(leg: Json, line: Line | None) -> Json:
    """A leg's line; if there is none, that through the ends that have a position."""
    ends = [(place["latitude"], place["longitude"]) for place in (leg["from"], leg["to"])]
    points = [(at[1], at[0]) for at in line] if line else [end for end in ends if None not in end]
    return {"points": polyline(points), "precision": PRECISION, "length": len(points)}


def leg_of(leg: Json, line: Line | None) -> Json:
    """A Leg: a ride or a walk."""
    starts, ends = leg["departure"]["iso"], leg["arrival"]["iso"]
    return {
        "mode": "TRANSIT" if leg["trip"] else "WALK",
        "from": place_of(leg["from"], departure=starts), "to": place_of(leg["to"], arrival=ends),
        "duration": leg["seconds"], "startTime": starts, "endTime": ends, "scheduledStartTime": starts, "scheduledEndTime": ends,
        "realTime": False, "scheduled": True, **(trip_fields(leg["trip"]) if leg["trip"] else {}),
        "legGeometry": geometry_of(leg, line),
    }


def itinerary_of(journey: Json, lines: Iterator[Line | None]) -> Json:
    """An Itinerary: a best journey, which takes the next lines for its legs."""
    return {
        "duration": journey["seconds"], "startTime": journey["departure"]["iso"], "endTime": journey["arrival"]["iso"],
        "transfers": max(journey["rides"] - 1, 0), "legs": [leg_of(leg, next(lines)) for leg in journey["legs"]],
    }


def plan_of(answer: Json, lines: list[Line | None], asked: Json) -> Json:
    """The response of plan, with a line for each leg. Journeys without a ride are `direct`, all others `itineraries`."""
    lines_in_turn = iter(lines)
    journeys = [(journey["rides"], itinerary_of(journey, lines_in_turn)) for journey in answer["journeys"]]
    return {
        "requestParameters": asked, "debugOutput": {},
        "from": place_of(answer["from"]), "to": place_of(answer["to"]),
        "direct": [itinerary for rides, itinerary in journeys if not rides],
        "itineraries": [itinerary for rides, itinerary in journeys if rides],
        "previousPageCursor": "", "nextPageCursor": "",
    }


def match_of(stop: Stop, place: int) -> Json:
    """A Match of geocode. What is found first has the highest score."""
    return without_none({
        "type": "STOP", "id": stop.id, "name": stop.name or stop.id, "lat": degrees(stop.latitude, 90), "lon": degrees(stop.longitude, 180),
        "level": 0, "parentId": stop.station or None, "tokens": [], "areas": [], "score": 1 - place / 100,
    })


def degrees(text: str, most: int) -> float | None:
    """A position's number, if the feed has one within its range."""
    try:
        number = float(text)
    except ValueError:
        return None
    return number if -most <= number <= most else None
