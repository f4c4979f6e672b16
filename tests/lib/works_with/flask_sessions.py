"""Flask-Session: sessions of a small application."""
from told import PORT, feature, plain

import flask_session
import redis
from flask import Flask, session

app = Flask("counts")
app.config.update(SESSION_TYPE="redis", SESSION_REDIS=redis.Redis(port=PORT), SECRET_KEY="k")
flask_session.Session(app)


@app.route("/")
def count():
    session["n"] = session.get("n", 0) + 1
    return str(session["n"])


def visits():
    visitor, other = app.test_client(), app.test_client()
    return [one.get("/").data for one in (visitor, visitor, other, visitor)]


feature("sessions", visits, [b"1", b"2", b"1", b"3"])
