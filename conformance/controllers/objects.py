"""Objects that the scenarios declare, and what they read of others."""


def template(labels, image):
    """Returns the template of pods."""
    return {"metadata": {"labels": labels}, "spec": {"containers": [{"name": "main", "image": image}]}}


def deployment(name, replicas, image):
    """Returns a Deployment that rolls by a quarter either way."""
    labels = {"app": name}
    strategy = {"type": "RollingUpdate", "rollingUpdate": {"maxSurge": "25%", "maxUnavailable": "25%"}}
    spec = {"replicas": replicas, "selector": {"matchLabels": labels}, "strategy": strategy, "template": template(labels, image)}
    return {"metadata": {"name": name}, "spec": spec}


def replica_set(name, replicas):
    """Returns a ReplicaSet whose pods have the label `set` with its name."""
    labels = {"set": name}
    return {"metadata": {"name": name}, "spec": {"replicas": replicas, "selector": {"matchLabels": labels}, "template": template(labels, "web:1")}}


def pod(name, labels):
    """Returns a Pod that nobody owns, and that a set takes away after all others that it has."""
    annotations = {"controller.kubernetes.io/pod-deletion-cost": "1"}
    return {"metadata": {"name": name, "labels": labels, "annotations": annotations}, "spec": template(labels, "web:1")["spec"]}


def ready(name):
    """Returns a Pod that says that it is ready."""
    return {"metadata": {"name": name}, "status": {"phase": "Running", "conditions": [{"type": "Ready", "status": "True"}]}}


def is_ready(value):
    """Returns whether a Pod says that it is ready."""
    return any(it["type"] == "Ready" and it["status"] == "True" for it in value.get("status", {}).get("conditions", []))


def is_going(value):
    """Returns whether an object is being deleted."""
    return "deletionTimestamp" in value["metadata"]


def staying(values):
    """Returns the objects that are not being deleted. A controller does not count the others, and makes new ones beside them."""
    return [it for it in values if not is_going(it)]


def image_of(value):
    """Returns the image that a Pod runs, or that a set's pods are to run."""
    spec = value["spec"].get("template", value)["spec"]
    return spec["containers"][0]["image"]


def controller(value):
    """Returns the uid of the object's controller, if it has one."""
    owners = value["metadata"].get("ownerReferences", [])
    return next((it["uid"] for it in owners if it.get("controller")), None)


def owners(value):
    """Returns the uids of the object's owners."""
    return {it["uid"] for it in value["metadata"].get("ownerReferences", [])}


def uid(value):
    return value["metadata"]["uid"]


def name(value):
    return value["metadata"]["name"]
