// Journeys as a list that a traveller reads.

const node = (tag, classes, ...content) => {
    const made = document.createElement(tag);
    if (classes) made.className = classes;
    made.append(...content);
    return made;
};

// The feed's clock as the text has it: the browser's own zone plays no part.
const day = (iso) => iso.slice(0, 10);
const seconds = (iso) => (iso.slice(17, 19) === "00" ? "" : iso.slice(16, 19));
const clock = (iso, first) => iso.slice(11, 16) + seconds(iso) + (day(iso) === day(first) ? "" : ` (${day(iso)})`);

const time = (iso, first) => {
    const made = node("time", "", clock(iso, first));
    made.dateTime = iso;
    return made;
};

const minutes = (length) => {
    const all = Math.ceil(length / 60);
    const hours = Math.floor(all / 60);
    return hours ? `${hours} h ${all % 60} min` : `${all} min`;
};

const stopName = (place) => place.name + (place.track ? `, platform ${place.track}` : "");
const rideName = (leg) => leg.displayName || `Trip ${leg.tripId}`;
const rides = (legs) => legs.filter((leg) => leg.mode !== "WALK");

const counted = (legs) => {
    const count = rides(legs).length;
    if (!count) return "on foot";
    return count === 1 ? "no change" : count === 2 ? "1 change" : `${count - 1} changes`;
};

const legItem = (leg, first) => {
    if (leg.mode === "WALK") {
        const ends = node("p", "", "There at ", time(leg.endTime, first));
        return node("li", "walk", node("p", "", node("span", "name", "Walk"), ` ${minutes(leg.duration)} to ${stopName(leg.to)}`), ends);
    }
    const name = node("p", "", node("span", "name", rideName(leg)), leg.headsign ? ` towards ${leg.headsign}` : "");
    const board = node("p", "", time(leg.startTime, first), ` board at ${stopName(leg.from)}`);
    const alight = node("p", "", time(leg.endTime, first), ` alight at ${stopName(leg.to)}`);
    return node("li", "ride", name, board, alight);
};

const waitItem = (before, leg) => {
    const length = (Date.parse(leg.startTime) - Date.parse(before.endTime)) / 1000;
    return length > 0 ? [node("li", "wait", `${minutes(length)} to change or wait`)] : [];
};

const legList = (journey) => {
    const items = journey.legs.flatMap((leg, place) => [
        ...(place ? waitItem(journey.legs[place - 1], leg) : []), legItem(leg, journey.startTime),
    ]);
    return items.length ? node("ol", "legs", ...items) : node("p", "legs", "You are there already.");
};

const title = (journey, asked) => {
    const times = node("span", "times", time(journey.startTime, asked), " to ", time(journey.endTime, asked));
    const names = rides(journey.legs).map(rideName).join(", then ") || "on foot";
    return node("summary", "", times, `, ${minutes(journey.duration)}, ${counted(journey.legs)}`, node("span", "names", names));
};

// Fills the list. One journey is open at a time, and `show` is called with it.
export const fill = (list, journeys, asked, show) => {
    const items = journeys.map((journey) => {
        const details = node("details", "", title(journey, asked), legList(journey));
        details.addEventListener("toggle", () => {
            if (!details.open) return;
            list.querySelectorAll("details[open]").forEach((other) => { if (other !== details) other.open = false; });
            show(journey);
        });
        return node("li", "", details);
    });
    list.replaceChildren(...items);
    if (items.length) items[0].firstChild.open = true;
};
