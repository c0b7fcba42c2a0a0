"""Pages that show sessions, for clients/probe --report and clients/page. In the order in which they are used:

exchanges    a transcript as records, which reply is to which request, and what was in flight meanwhile; which records
             of a long session are shown
picture      the HTML of a session: time downwards, a lane for each request in flight
figures      requests by their kinds, bytes, how long they waited, the slowest; the HTML of that
sets         sessions that overlapped: their requests by the time asked, an order of them, and which are shown
lanes        the HTML of a set: a row for each request, with a bar in a lane of its session
joint        `sftpv3-together` on a set: its verdict, and the requests that it names
differing    where a reply differs: the byte, with what was expected and what was found; the HTML of that
document     the HTML of a page, with page.css and page.js in it: that of one session, of a set, of a run of the probe
"""
