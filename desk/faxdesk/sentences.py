"""What people read of a fax."""
import time


def shown(moment):
    return time.strftime("%Y-%m-%d %H:%M", time.localtime(moment)) if moment else ""


def sentence(fax):
    """What happens next with a fax, or what became of it."""
    if fax["stage"] in ("unusable", "refused"):
        return fax["reason"]
    if fax["reason"] and fax["stage"] != "submitted":
        return "It is being given up."
    if fax["stage"] == "uploaded":
        return "The file is being converted."
    if fax["stage"] == "ready" or fax["state"] is None:
        return "It is being submitted to the queue."
    pages = f"{fax['confirmed']} of {fax['pages']} pages"
    later = fax["send_at"] and fax["send_at"] > time.time()
    return {
        0: f"The queue doesn't have its job any more. {pages} were confirmed, and the others may not have been sent.",
        1: "It is suspended. Resume lets it continue.",
        2: f"It goes at {shown(fax['send_at'])}." if later else "It waits for the hours in which the number may be called.",
        3: f"It was tried{': ' + fax['status'] if fax['status'] else ''}. The next try follows.",
        4: "The number is being called by another fax. It goes after that.",
        5: "It goes with the next free modem.",
        6: f"It is being sent: {pages} are confirmed.",
        7: f"Sent: all {fax['pages']} pages were confirmed, {shown(fax['ended'])}.",
        8: f"It failed: {fax['status'] or 'no reason is known'}. {pages} were confirmed.",
    }[fax["state"]]
