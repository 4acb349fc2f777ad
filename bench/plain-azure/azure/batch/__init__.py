"""Makes the requests that Azure's client for Python makes, for tests where that is not installed.

It has the names of the module `azure.batch` 13.0.1 that bench/azure and examples/azure_client use, and sends what that version sends: the
path, the query, the fields of the head, and the body with the members that are set. Of a reply it reads what that version reads: the one
status that is a success, the members that it knows, with all others in `additional_properties`, and the code of a refusal. An error whose
values are texts is lost, and so is a pool whose `resizeErrors` are, as in that version. It sends nothing a second time.
"""
import base64
import email.utils
import hashlib
import hmac
import http.client
import json
import urllib.parse
import uuid

from . import models

VERSION = "2022-10-01.16.0"
AGENT = "python/3.11.2 (Linux-6.1.0-x86_64-with-glibc2.36) msrest/0.6.21 msrest_azure/0.6.4 azure-batch/13.0.1 Azure-SDK-For-Python"
CHUNK = 100


class Sender:
    """A kept connection to a service."""

    def __init__(self, credentials, url, query=(), agent=AGENT):
        parts = urllib.parse.urlsplit(url)
        self.credentials, self.host, self.query, self.agent = credentials, parts.netloc, dict(query), agent
        self.connection = http.client.HTTPConnection(parts.netloc, timeout=300)

    def send(self, method, path, ok, body=None, kind=None):
        """The reply to a request, read as this kind; None if it has no body or no kind is given."""
        query = urllib.parse.urlencode({"api-version": VERSION, **self.query}, safe=":")
        content = b"" if body is None else json.dumps(models.written(body)).encode()
        self.connection.putrequest(method, f"{path}?{query}", skip_host=True, skip_accept_encoding=True)
        for name, value in self.fields(method, path, content, body is not None):
            self.connection.putheader(name, value)
        self.connection.endheaders(content or None)
        response = self.connection.getresponse()
        text = response.read()
        if response.status != ok:
            raise models.BatchErrorException(response.status, json.loads(text) if text else {})
        return models.read(kind, json.loads(text)) if kind and text else None

    def fields(self, method, path, content, has_body):
        """The fields of the head, in their order."""
        date = email.utils.formatdate(usegmt=True)
        fields = [("Host", self.host), ("User-Agent", self.agent), ("Accept-Encoding", "gzip, deflate"), ("Accept", "application/json"), ("Connection", "keep-alive")]
        if has_body:
            fields.append(("Content-Type", "application/json; odata=minimalmetadata; charset=utf-8"))
        fields += [("client-request-id", str(uuid.uuid4())), ("accept-language", "en-US")]
        if has_body or method in ("POST", "DELETE", "PATCH"):
            fields.append(("Content-Length", str(len(content))))
        text = "\n".join([method, "", "", str(len(content) or ""), "", "", "", "", "", "", "", "", f"ocp-date:{date}", f"/{self.credentials.name}{path}"])
        key = hmac.new(base64.b64decode(self.credentials.key), text.encode(), hashlib.sha256)
        return fields + [("ocp-date", date), ("Authorization", f"SharedKey {self.credentials.name}:{base64.b64encode(key.digest()).decode()}")]


class PoolOperations:
    """`client.pool`."""

    def __init__(self, sender):
        self.send = sender.send

    def add(self, pool):
        self.send("POST", "/pools", 201, pool)

    def list(self):
        return iter(self.send("GET", "/pools", 200, kind=models.CloudPool))

    def get(self, pool_id):
        return self.send("GET", f"/pools/{pool_id}", 200, kind=models.CloudPool)

    def delete(self, pool_id):
        self.send("DELETE", f"/pools/{pool_id}", 202)

    def resize(self, pool_id, parameter):
        self.send("POST", f"/pools/{pool_id}/resize", 202, parameter)

    def stop_resize(self, pool_id):
        self.send("POST", f"/pools/{pool_id}/stopresize", 202)


class ComputeNodeOperations:
    """`client.compute_node`."""

    def __init__(self, sender):
        self.send = sender.send

    def list(self, pool_id):
        return iter(self.send("GET", f"/pools/{pool_id}/nodes", 200, kind=models.ComputeNode))


class JobOperations:
    """`client.job`."""

    def __init__(self, sender):
        self.send = sender.send

    def add(self, job):
        self.send("POST", "/jobs", 201, job)

    def list(self):
        return iter(self.send("GET", "/jobs", 200, kind=models.CloudJob))

    def get(self, job_id):
        return self.send("GET", f"/jobs/{job_id}", 200, kind=models.CloudJob)

    def patch(self, job_id, parameter):
        self.send("PATCH", f"/jobs/{job_id}", 200, parameter)

    def disable(self, job_id, disable_tasks):
        self.send("POST", f"/jobs/{job_id}/disable", 202, {"disableTasks": disable_tasks})

    def enable(self, job_id):
        self.send("POST", f"/jobs/{job_id}/enable", 202)

    def terminate(self, job_id, terminate_reason):
        self.send("POST", f"/jobs/{job_id}/terminate", 202, {"terminateReason": terminate_reason})

    def delete(self, job_id):
        self.send("DELETE", f"/jobs/{job_id}", 202)

    def get_task_counts(self, job_id):
        return self.send("GET", f"/jobs/{job_id}/taskcounts", 200, kind=models.TaskCountsResult)


class TaskOperations:
    """`client.task`."""

    def __init__(self, sender):
        self.send = sender.send

    def add(self, job_id, task):
        self.send("POST", f"/jobs/{job_id}/tasks", 201, task)

    def add_collection(self, job_id, value):
        """Adds the tasks by 100, from the last one to the first."""
        left, results = list(reversed(value)), []
        while left:
            results += self.send("POST", f"/jobs/{job_id}/addtaskcollection", 200, {"value": left[:CHUNK]}, models.TaskAddResult)
            left = left[CHUNK:]
        return models.TaskAddCollectionResult(value=results)

    def list(self, job_id):
        return iter(self.send("GET", f"/jobs/{job_id}/tasks", 200, kind=models.CloudTask))

    def get(self, job_id, task_id):
        return self.send("GET", f"/jobs/{job_id}/tasks/{task_id}", 200, kind=models.CloudTask)

    def delete(self, job_id, task_id):
        self.send("DELETE", f"/jobs/{job_id}/tasks/{task_id}", 200)

    def terminate(self, job_id, task_id):
        self.send("POST", f"/jobs/{job_id}/tasks/{task_id}/terminate", 204)

    def reactivate(self, job_id, task_id):
        self.send("POST", f"/jobs/{job_id}/tasks/{task_id}/reactivate", 204)


class BatchServiceClient:
    """The client."""

    def __init__(self, credentials, batch_url, query=(), agent=AGENT):
        sender = Sender(credentials, batch_url, query, agent)
        self.pool, self.compute_node, self.job, self.task = PoolOperations(sender), ComputeNodeOperations(sender), JobOperations(sender), TaskOperations(sender)
